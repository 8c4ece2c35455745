"""Keytabs for tests."""


def keytab(*entries):
    """A keytab of MIT's format 0x0502 with these entries: realm, name, kvno, etype and key."""
    def counted(octets):
        return len(octets).to_bytes(2, "big") + octets

    records = []
    for realm, name, kvno, etype, key in entries:
        components = name.split("/")
        record = len(components).to_bytes(2, "big") + counted(realm.encode())
        record += b"".join(counted(it.encode()) for it in components)
        record += (1).to_bytes(4, "big") + bytes(4) + bytes([kvno]) + etype.to_bytes(2, "big") + counted(key)
        records.append(len(record).to_bytes(4, "big") + record)
    return b"\x05\x02" + b"".join(records)
