"""Alice's encrypted mail to Bob and Carol, as Bob's mail program hands it down: from the payload he learns Carol's key."""

from pathlib import Path

from vienghulac import Gossip, Table, entries, process, recommend, target_key

MESSAGES = Path(__file__).parents[1] / "tests" / "independent" / "tests" / "messages"
outer = (MESSAGES / "alice-to-both.txt").read_bytes().partition(b"\n\n")[0]
payload = (MESSAGES / "alice-to-both-payload.txt").read_bytes().partition(b"\n\n")[0]

table = Table.new(slots=16)
process(table, 1_510_063_000, outer, payload, Gossip.TAKE)  # whoever wants gossip has to say so
for entry in entries(table):
    kind = "a key of her own" if entry.direct_key else "a key by gossip"
    print(f"{entry.address.decode():24} {kind}")
to_carol = b"Carol <carol@autocrypt.example>"
print("a new mail to Carol:    ", recommend(table, to_carol).name)
print("a reply to this mail:   ", recommend(table, to_carol, reply=True).name)
print("the key to encrypt to:  ", len(target_key(table, to_carol)), "octets")
