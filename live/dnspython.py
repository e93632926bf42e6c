"""Debian's modules. Without them the names of the scenes can still be listed."""

try:
    import dns.asyncquery
    import dns.dnssec
    import dns.exception
    import dns.flags
    import dns.message
    import dns.name
    import dns.rdata
    import dns.rdataset
    import dns.rdatatype
    import dns.rrset
    import dns.serial
    import dns.zone
    from cryptography.hazmat.primitives import hashes
    from cryptography.hazmat.primitives.asymmetric import ec, utils
except ModuleNotFoundError:
    dns = ec = hashes = utils = None
