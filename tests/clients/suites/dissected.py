"""What Wireshark makes of requests and replies: Debian's tshark, with the keys of the realm."""

import subprocess
import time

import realm_inside
import told

FILE, KEYTAB = "/tmp/frames.pcap", "/tmp/frames.keytab"


def fields(*more):
    """The dissection of each frame of the protocol."""
    return realm_inside.ran("tshark", "-r", FILE, "-K", KEYTAB, "-o", "kerberos.decrypt:TRUE", "-Y", "kpasswd", *more, seconds=120)


def main():
    name = realm_inside.user("shark")
    for principal in (name, "kadmin/changepw"):
        realm_inside.ran("kadmin.local", "ktadd", "-k", KEYTAB, "-norandkey", principal)
    capture = subprocess.Popen(["tshark", "-q", "-i", "lo", "-f", "port 464", "-w", FILE], stdout=subprocess.DEVNULL,
                               stderr=subprocess.DEVNULL)
    time.sleep(5)
    for new in ("short", "New-pass1"):
        realm_inside.ran("kpasswd", name, lines=[realm_inside.PASSWORD, new, new], check=False)
    time.sleep(2)
    capture.terminate()
    capture.wait(30)
    text = fields("-V")
    told.run("the success", lambda: told.wanted("it", "Result: Success (0)" in text, True))
    told.run("the refusal", lambda: told.wanted("it", "Result: Failed for some other reason (4)" in text or "(4)" in text, True))
    told.run("the result's text", lambda: told.wanted("it", "password too short" in text, True))
    told.run("the sender's address", lambda: told.wanted("it", "127.0.0.1" in text, True))
    told.run("no frame is malformed", lambda: told.wanted("it", "Malformed" in text, False))


if __name__ == "__main__":
    main()
