"""Alarms: what an operator has to see to, by a state as `/state` answers it. RUNBOOK.md has each of them.

Each alarm is a function of a state. It returns a text and a cure, or nothing while all is well.
"""

OLD = 5.0  # seconds
MOST_SNAPSHOT = 60.0  # seconds that an answer may take
AHEAD = 10.0  # seconds that a clock may be ahead
CLOCK = 1.0  # seconds that the coordinator's clock may be behind its stamps
ROUNDS = 3  # checkpoints that may be left out
NUMBERS = 1000  # of the 1,024 numbers of nodes


def floor_old(state):
    held = state["held_back"]
    if held["by"] != "nothing" and state["floor_age_seconds"] > OLD:
        age = f"{state['floor_age_seconds']:.0f} s old" if state["floor"] else "still 0.0"
        return f"the floor is {age}: {held['why']}", held["cure"]


def log_unreachable(state):
    unseen, trouble = state["log"]["unseen_seconds"], state["log"]["trouble"]
    if unseen > OLD:
        text = f"etcd has not answered for {unseen:.0f} s" + (f": {trouble}" if trouble else "")
        return text, "see which members run, and start a majority of them: etcdctl endpoint health"


def clocks_apart(state):
    age, name = min(
        ((node["age_seconds"], node["name"]) for node in state["nodes"] if not node["retired"]), default=(0, "")
    )
    if age < -AHEAD:
        text = f"the last stamp of {name} is {-age:.0f} s ahead of this machine's clock"
        return text, f"compare the clocks of this machine and of that of {name}, and set the wrong one right"


def replica_behind(state):
    if state["log"]["behind_seconds"] > OLD:
        text = f"{state['log']['items_behind']} items of the log are not applied after "
        text += f"{state['log']['behind_seconds']:.0f} s"
        return text, "see the log lines and the processor's load of this replica; ask another one meanwhile"


def checkpoint_failed(state):
    if failure := state["checkpoints"]["failure"]:
        text = f"the last checkpoint was not saved: {failure}"
        return text, "make room on the file system of the folder; it goes on by itself"


def checkpoint_old(state):
    found = state["checkpoints"]
    if found["age_seconds"] > ROUNDS * found["every_seconds"] + OLD:
        text = f"the newest checkpoint is {found['age_seconds']:.0f} s old"
        return text, "see the log lines of this replica: the log is kept from its oldest checkpoint on"


def snapshot_old(state):
    age = max((snapshot["open_seconds"] for snapshot in state["snapshots"]), default=0)
    if age > MOST_SNAPSHOT:
        text = f"a snapshot has been open for {age:.0f} s"
        return text, "see which client asks for so much; a replica that is started again has no open snapshot"


def appends_wait(state):
    found = state["coordinator"]
    if found["append_age_seconds"] > OLD:
        text = f"no append has ended for {found['append_age_seconds']:.0f} s"
        text += f": {found['trouble']}" if found["trouble"] else ""
        return text, "if etcd is above its quota, see NoSpace in the runbook; else see which members run"


def clock_behind(state):
    behind = state["coordinator"]["clock_behind_seconds"]
    if behind > CLOCK:
        text = f"the coordinator's clock is {behind:.0f} s behind its own last stamp"
        return text, "set the clock of this machine right, or start a coordinator where the clock is right"


def no_replica(state):
    if not state["replicas"] and state["log"]["unseen_seconds"] <= OLD:
        return "no replica publishes where it is: the threshold and the log's cut stand still", "start a replica"


def replica_slow(state):
    ages = {replica["name"]: replica["age_seconds"] for replica in state["replicas"]}
    slow = [name for name in ages if ages[name] > min(ages.values()) + OLD]
    if slow:
        text = f"{', '.join(sorted(slow))}: more than {OLD:.0f} s behind the fastest replica"
        return text, "see that replica's page; the threshold waits for it, and rows are kept"


def few_numbers(state):
    assigned = state["coordinator"]["numbers_assigned"]
    if assigned >= NUMBERS:
        text = f"{assigned} of the 1024 numbers of nodes are assigned"
        return text, "let writers keep their names: one that retires and comes again takes a further number"


def member_down(state):
    members = [member["address"] for member in state["coordinator"]["members"] if not member["answers"]]
    if members:
        text = f"of etcd's members {', '.join(members)} does not answer"
        return text, "start it again; if its machine is lost, replace it: see Members of etcd in the runbook"


def no_space(state):
    members = [member["address"] for member in state["coordinator"]["members"] if member["no_space"]]
    if members:
        text = f"etcd takes no appends: a member is above its quota ({', '.join(members)})"
        return text, "give the members a greater quota, then etcdctl defrag, and etcdctl alarm disarm"


COMMON = {"FloorOld": floor_old, "LogUnreachable": log_unreachable, "ClocksApart": clocks_apart}
OF_A_REPLICA = COMMON | {
    "ReplicaBehind": replica_behind,
    "CheckpointFailed": checkpoint_failed,
    "CheckpointOld": checkpoint_old,
    "SnapshotOld": snapshot_old,
}
OF_THE_COORDINATOR = COMMON | {
    "AppendsWait": appends_wait,
    "ClockBehind": clock_behind,
    "NoReplica": no_replica,
    "ReplicaSlow": replica_slow,
    "FewNumbers": few_numbers,
    "MemberDown": member_down,
    "NoSpace": no_space,
}


def alarms_of(state, known):
    """Returns the alarms of a state, in the order of their names in `known`."""
    found = []
    for name, alarm in known.items():
        if said := alarm(state):
            found.append({"alarm": name, "text": said[0], "cure": said[1]})
    return found
