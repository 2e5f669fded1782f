"""The servers of the tree, each with its kind and address."""

SERVERS = {
    "root": ("named", "198.51.100.1"),
    "tops": ("named", "198.51.100.2"),
    "named": ("named", "198.51.100.3"),
    "opt": ("Knot", "198.51.100.4"),
    "Knot": ("Knot", "198.51.100.5"),
    "NSD": ("NSD", "198.51.100.6"),
}
