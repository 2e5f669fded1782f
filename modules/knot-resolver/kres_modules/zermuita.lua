-- Judges in Knot Resolver's own process what it validates.
--
--   modules.load('zermuita > iterate')
--   zermuita.config({
--       library = '/usr/lib/zermuita/libzermuita_module.so',
--       anchors = '/usr/share/dns/root.ds',
--       mode = 'enforce',                   -- or 'log', or 'metrics'
--       log = '/var/log/zermuita.log',
--       iterations = 150, memory = 64,
--   })
--
-- 'metrics' counts what agrees: zermuita.metrics() has the counts. 'log' also appends a line of JSON for each disagreement.
-- 'enforce' also answers SERVFAIL with an extended error if the judge proves an answer false, and without AD if nothing proves it.
-- An answer that the resolver refuses stays refused. `> iterate` has the module see messages before they are validated.
-- The file belongs into the folder kres_modules of the resolver's own modules (Debian: /usr/lib/*/knot-resolver/kres_modules), or
-- package.path finds it: package.path = '/some/folder/?.lua;' .. package.path, with this file in /some/folder/kres_modules.

local ffi = require('ffi')
local bit = require('bit')

ffi.cdef([[
struct zermuita_module;
struct zermuita_module_counts { uint64_t learned, judged, agreed, cleared, refused, not_judged; };
struct zermuita_module *zermuita_module_open(const char *anchors, const char *log, uint32_t iterations, uint32_t mib);
void zermuita_module_learn(struct zermuita_module *module, const uint8_t *octets, size_t len, uint64_t now, uint32_t is_of_server);
uint32_t zermuita_module_judge(struct zermuita_module *module, const uint8_t *octets, size_t len, uint64_t now, uint16_t *ede);
size_t zermuita_module_refusal(const uint8_t *octets, size_t len, uint16_t ede, uint8_t *out, size_t room);
void zermuita_module_counts(struct zermuita_module *module, struct zermuita_module_counts *counts);
]])

local PASS, CLEAR_AD = 0, 1
local ROOM = 65535
local M = { layer = {} }
local library, judge, is_enforcing
local out = ffi.new('uint8_t[?]', ROOM)
local ede = ffi.new('uint16_t[1]')

function M.config(settings)
	if type(settings) ~= 'table' then return end
	library = ffi.load(settings.library or 'zermuita_module')
	local log = settings.mode ~= 'metrics' and settings.log or nil
	judge = library.zermuita_module_open(settings.anchors or '/usr/share/dns/root.ds', log, settings.iterations or 150, settings.memory or 64)
	if judge == nil then
		error('[zermuita] the anchors can not be read, the log can not be written, or memory ran out')
	end
	is_enforcing = settings.mode == 'enforce'
end

function M.metrics()
	local counts = ffi.new('struct zermuita_module_counts')
	library.zermuita_module_counts(judge, counts)
	local found = {}
	for _, name in ipairs({ 'learned', 'judged', 'agreed', 'cleared', 'refused', 'not_judged' }) do
		found[name] = tonumber(counts[name])
	end
	return found
end

-- Each message that the resolver has: of a server, or put together from its cache.
function M.layer.consume(state, req, pkt)
	if judge ~= nil and pkt.size >= 12 then
		local query = req:current()
		local is_of_server = query ~= nil and not query.flags.CACHED
		library.zermuita_module_learn(judge, pkt.wire, pkt.size, os.time(), is_of_server and 1 or 0)
	end
	return state
end

-- The answer to a client, as it is about to be sent.
function M.layer.finish(state, req)
	local answer = req.answer
	if judge == nil or answer == nil or req.qsource.addr == nil then
		return state
	end
	local action = library.zermuita_module_judge(judge, answer.wire, answer.size, os.time(), ede)
	if not is_enforcing or action == PASS then
		return state
	end
	if action == CLEAR_AD then
		answer.wire[3] = bit.band(answer.wire[3], 0xdf)
		return state
	end
	local len = library.zermuita_module_refusal(answer.wire, answer.size, ede[0], out, answer.max_size)
	if len > 0 then
		ffi.copy(answer.wire, out, len)
		answer.size = len
	end
	return state
end

return M
