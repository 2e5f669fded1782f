// Reads a release of the corpus by miekg/dns, and verifies the records of right answers.
// usage: reader denial-corpus-VERSION.json (golang-go, golang-github-miekg-dns-dev; GO111MODULE=off GOPATH=/usr/share/gocode go run reader.go FILE)
package main

import (
	"encoding/hex"
	"encoding/json"
	"fmt"
	"os"
	"strings"
	"time"

	"github.com/miekg/dns"
)

type message struct {
	Name, Message string
	Type          uint16
}
type oneCase struct {
	Id, Apex, Dnskey, Answer string
	Moment                   int64
	Question                 struct {
		Name string
		Type uint16
	}
	Expected     struct{ Result, Which string }
	Before, More []message
}

// Whether a message can be read, asks the question, and has as many records as its header counts.
func read(it message) (*dns.Msg, bool) {
	octets, _ := hex.DecodeString(it.Message)
	wire, _ := hex.DecodeString(it.Name)
	name, _, _ := dns.UnpackDomainName(wire, 0)
	m := new(dns.Msg)
	if m.Unpack(octets) != nil {
		return m, false
	}
	headed := 0
	for at := 6; at < 12; at++ {
		headed += int(octets[at]) << (8 * uint(1-at%2))
	}
	return m, m.Question[0].Name == name && m.Question[0].Qtype == it.Type && len(m.Answer)+len(m.Ns)+len(m.Extra) == headed
}

// Whether a key of the DNSKEY answer verifies a signature over the question's records.
func verifies(keys, answer *dns.Msg, question dns.Question, at time.Time) bool {
	var rrset []dns.RR
	for _, rr := range answer.Answer {
		if rr.Header().Rrtype == question.Qtype && strings.EqualFold(rr.Header().Name, question.Name) {
			rrset = append(rrset, rr)
		}
	}
	for _, rr := range answer.Answer {
		for _, key := range keys.Answer {
			sig, isSig := rr.(*dns.RRSIG)
			dnskey, isKey := key.(*dns.DNSKEY)
			if isSig && isKey && sig.TypeCovered == question.Qtype && sig.ValidityPeriod(at) && sig.Verify(dnskey, rrset) == nil {
				return true
			}
		}
	}
	return false
}

func main() {
	text, err := os.ReadFile(os.Args[1])
	var release struct{ Groups []struct{ Cases []oneCase } }
	if err == nil {
		err = json.Unmarshal(text, &release)
	}
	if err != nil {
		panic(err)
	}
	cases, ok, verified := 0, 0, 0
	var unread, unverified []string
	for _, group := range release.Groups {
		for _, c := range group.Cases {
			cases++
			messages := append([]message{{c.Apex, c.Dnskey, 48}, {c.Question.Name, c.Answer, c.Question.Type}}, append(c.Before, c.More...)...)
			var first []*dns.Msg
			for _, it := range messages {
				m, isRead := read(it)
				first = append(first, m)
				if isRead {
					ok++
				} else {
					unread = append(unread, c.Id)
				}
			}
			if c.Expected.Result == "secure" && c.Expected.Which == "answer" && len(first[1].Question) == 1 {
				if verifies(first[0], first[1], first[1].Question[0], time.Unix(c.Moment, 0)) {
					verified++
				} else {
					unverified = append(unverified, c.Id)
				}
			}
		}
	}
	fmt.Printf("miekg/dns: %d cases, %d messages read, %d not: %s\n", cases, ok, len(unread), strings.Join(unread, " "))
	fmt.Printf("miekg/dns: %d right answers verified, %d not: %s\n", verified, len(unverified), strings.Join(unverified, " "))
}
