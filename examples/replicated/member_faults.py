"""What an operator does to the members of etcd, for `run`: each is started again in turn, or one is replaced."""

import shutil

from cluster import MEMBERS
from etcd import Etcd, Refused


def with_members(faults):
    """Adds these faults to others."""

    def begin():
        """Returns whether no other fault has a member away; then this one has."""
        if faults.member_down is not None:
            return False
        faults.member_down = "operator"
        return True

    def restart_members():
        if not begin():
            return None
        stop(0)
        return "each member is started again, in turn, as for another version"

    def stop(member):
        cluster = faults.programs.cluster
        cluster.end(member)
        faults.after(0.2, 1, start, member)

    def start(member):
        faults.programs.cluster.start(member, "existing")
        await_member(member, lambda: faults.after(0.5, 1, stop, member + 1) if member + 1 < MEMBERS else done())

    def await_member(member, then):
        if (faults.programs.cluster.status(member) or {}).get("leader"):
            then()
        else:
            faults.after(0.2, 0.3, await_member, member, then)

    def done():
        faults.member_down = None

    def replace_member():
        """The disk of a member is lost: it leaves the cluster, and an empty one joins at its address."""
        if not begin():
            return None
        cluster, member = faults.programs.cluster, faults.chance.randrange(MEMBERS)
        cluster.kill(member)
        shutil.rmtree(cluster.folder / f"m{member}")
        faults.after(0.5, 2, remove, member)
        return f"member {member} is lost with its disk, and replaced"

    def others(member):
        cluster = faults.programs.cluster
        return Etcd([address for number, address in enumerate(cluster.addresses) if number != member])

    def remove(member):
        etcd, url = others(member), f"http://{faults.programs.cluster.peers[member]}"
        found = etcd.call("cluster/member/list", {})["members"]
        known = [each["ID"] for each in found if each.get("peerURLs") == [url]]
        try:
            for number in known:
                etcd.call("cluster/member/remove", {"ID": number})
            add(member)
        except Refused:  # the others have not met yet
            faults.after(0.5, 1, remove, member)

    def add(member):
        try:
            others(member).call("cluster/member/add", {"peerURLs": [f"http://{faults.programs.cluster.peers[member]}"]})
        except Refused:
            faults.after(0.5, 1, add, member)
            return
        faults.programs.cluster.start(member, "existing")
        await_member(member, done)

    faults.faults += [restart_members, replace_member]
