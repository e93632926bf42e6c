"""Where each server and each resolver listens: addresses of the loopback, and one port."""

PARENT = ("127.0.53.11", "127.0.53.12")
CHILD = {"A": ("127.0.53.21", "127.0.53.22"), "B": ("127.0.53.31", "127.0.53.32")}
SERVERS = (*PARENT, *CHILD["A"], *CHILD["B"])

UNBOUND, STRICT, POWERDNS, CACHE, BEHIND = (f"127.0.53.{last}" for last in range(51, 56))
LEAST_CACHE, LEAST = "127.0.53.56", "127.0.53.57"
# BIND listens only at addresses that an interface has.
BIND = "127.0.0.1"

# The resolvers that clients ask. Only the last one asks a cache.
RESOLVERS = {
    "unbound": UNBOUND,
    "unbound-strict": STRICT,
    "bind": BIND,
    "powerdns": POWERDNS,
    "unbound-behind-cache": BEHIND,
}
# A cache that keeps all sets for this many seconds at least. Only clients of some scenes ask the
# resolver behind it.
LEAST_TTL = 12
ALL = (*SERVERS, CACHE, LEAST_CACHE, *RESOLVERS.values(), LEAST)
