"""The command looks names up at a resolver of the run, on the run's port. That resolver may fail
for one name."""

import os
import sys

# (dnspython would load what asks over HTTPS, which takes longer than a word of the command.)
sys.modules["httpx"] = sys.modules["requests"] = None

import dns.resolver


class Resolver(dns.resolver.Resolver):
    def resolve(self, qname, *what, **how):
        if str(qname) == os.environ["LOOKING_UP_FAILS"]:
            raise dns.resolver.NoNameservers
        return super().resolve(qname, *what, **how)


resolver = Resolver(configure=False)
resolver.nameservers = [os.environ["LOOKING_UP"]]
resolver.port = int(os.environ["LOOKING_UP_PORT"])
dns.resolver.default_resolver = resolver
