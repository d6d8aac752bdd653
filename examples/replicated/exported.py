"""What `/metrics` has: the numbers of a state as `/state` answers it, and those that a program counts."""

import metrics
from metrics import counter, gauge, gauges


def name_of(node):
    """Returns the labels of a node."""
    return {"node": node["node"], "name": node["name"]}


def seconds(stamp):
    return (stamp >> 16) / 1000


def common(state, known):
    """Yields what a replica and the coordinator have alike. `known` are the names of its alarms."""
    yield gauge("hlcstore_floor_seconds", "The floor (closed timestamp), in Unix time.", seconds(state["floor"]))
    yield gauge("hlcstore_floor_age_seconds", "How old the floor is.", state["floor_age_seconds"])
    held, active = state["held_back"], [node for node in state["nodes"] if not node["retired"]]
    labels = {"node": held["node"], "name": held["name"], "by": held["by"]}
    yield gauges("hlcstore_floor_held_back_seconds", "The age of the head for which the floor waits; by says why.",
                 [(labels, held["age_seconds"])])  # fmt: skip
    yield gauges("hlcstore_head_seconds", "The head of each node that has not retired, in Unix time.",
                 [(name_of(node), seconds(node["head"])) for node in active])  # fmt: skip
    yield gauges("hlcstore_head_age_seconds", "How old the head of each node is that has not retired.",
                 [(name_of(node), node["age_seconds"]) for node in active])  # fmt: skip
    yield gauge("hlcstore_nodes", "The nodes that have not retired.", len(active))
    yield gauge("hlcstore_nodes_retired", "The nodes that have retired.", len(state["nodes"]) - len(active))
    yield gauge("hlcstore_threshold_seconds", "The retention threshold, in Unix time.", seconds(state["threshold"]))
    yield gauges("hlcstore_replica_floor_age_seconds", "How old the floor is that each replica has published.",
                 [({"replica": replica["name"]}, replica["age_seconds"]) for replica in state["replicas"]])  # fmt: skip
    log = state["log"]
    yield gauge("hlcstore_items_per_second", "Items over the last seconds.", log["items_per_second"])
    yield gauge("hlcstore_log_unseen_seconds", "For how long etcd has not answered.", log["unseen_seconds"])
    firing = {alarm["alarm"] for alarm in state["alarms"]}
    yield gauges("hlcstore_alarm", "1 while an alarm of the runbook is raised.",
                 [({"alarm": alarm}, alarm in firing) for alarm in known])  # fmt: skip


def of_a_replica(state, counters, known):
    """Yields the families of a replica."""
    yield from common(state, known)
    yield gauge("hlcstore_horizon_seconds", "The horizon (GC threshold), in Unix time.", seconds(state["horizon"]))
    yield gauge("hlcstore_horizon_age_seconds", "How old the horizon is.", state["horizon_age_seconds"])
    yield from stored(state)
    ranges = [(each, {"range": each["range"]}) for each in state["ranges"] if each["live"]]
    yield gauges("hlcstore_range_floor_age_seconds", "How old the floor of each range is that is here.",
                 [(labels, each["floor_age_seconds"]) for each, labels in ranges])  # fmt: skip
    yield gauges("hlcstore_range_rows", "Stored rows of each range.",
                 [(labels, each["rows"]) for each, labels in ranges])  # fmt: skip
    log = state["log"]
    yield gauge("hlcstore_log_revision", "The revision of etcd up to which the log is applied.", state["revision"])
    yield gauge("hlcstore_log_behind_items", "Items of the log that are not applied.", log["items_behind"])
    yield gauge("hlcstore_log_behind_seconds", "For how long some have not been applied.", log["behind_seconds"])
    yield counter("hlcstore_items_total", "Items that are applied, from the first one of the log on.", log["items"])
    yield from saved(state, counters)
    yield from vacuumed(state, counters)
    yield from answered(counters)
    yield counters.family("begins", "hlcstore_begins_total", "Beginnings, by origin: disk, empty, or a replica.")
    yield from metrics.process_families()


def stored(state):
    sizes = state["sizes"]
    yield gauge("hlcstore_rows", "Stored rows.", sizes["rows"])
    yield gauge("hlcstore_keys", "Keys that have rows.", sizes["keys"])
    yield gauge("hlcstore_key_bytes", "Bytes of these keys.", sizes["key_bytes"])
    yield gauge("hlcstore_value_bytes", "Bytes of the values of all rows.", sizes["value_bytes"])
    snapshots = state["snapshots"]
    yield gauge("hlcstore_snapshots_open", "Open snapshots.", len(snapshots))
    oldest = max((snapshot["open_seconds"] for snapshot in snapshots), default=0.0)
    yield gauge("hlcstore_snapshot_open_seconds", "For how long the first of them has been open.", oldest)


def saved(state, counters):
    found = state["checkpoints"]
    yield counter("hlcstore_checkpoints_total", "Checkpoints that were saved.", counters.of("checkpoints"))
    yield counter("hlcstore_checkpoints_failed_total", "Those that were not.", counters.of("checkpoints_failed"))
    yield counter("hlcstore_checkpoint_seconds_total", "How long they took.", counters.of("checkpoint_seconds"))
    yield gauge("hlcstore_checkpoint_age_seconds", "The age of the newest, or of the process.", found["age_seconds"])
    yield gauge("hlcstore_checkpoint_bytes", "The size of the newest.", found["bytes"])
    yield gauge("hlcstore_checkpoint_revision", "The revision of the oldest one that is kept.", state["checkpoint"])


def vacuumed(state, counters):
    yield counter("hlcstore_vacuums_total", "Vacuums.", counters.of("vacuums"))
    yield counter("hlcstore_vacuum_seconds_total", "How long they took.", counters.of("vacuum_seconds"))
    yield counter("hlcstore_vacuum_rows_dropped_total", "Rows that they dropped.", counters.of("vacuum_rows_dropped"))
    yield gauge("hlcstore_vacuum_last_seconds", "How long the last one took.", state["vacuum"]["seconds"])


def answered(counters):
    yield counters.family("http_answers", "hlcstore_http_answers_total", "Answers over HTTP, by status.")
    yield counters.family("refusals", "hlcstore_refusals_total", "Refusals of the library, by number.")


def of_the_coordinator(state, counters, known):
    """Yields the families of the coordinator."""
    yield from common(state, known)
    found = state["coordinator"]
    yield gauge("hlcstore_threshold_age_seconds", "How old the threshold is.", found["threshold_age_seconds"])
    yield gauge("hlcstore_retention_seconds", "For how long reads stay possible.", found["retention_seconds"])
    yield gauge("hlcstore_append_age_seconds", "How long ago an append ended.", found["append_age_seconds"])
    yield gauge("hlcstore_clock_behind_seconds", "How far the clock is behind the last stamp.",
                found["clock_behind_seconds"])  # fmt: skip
    yield gauge("hlcstore_numbers_assigned", "Numbers of nodes that are assigned, of 1024.", found["numbers_assigned"])
    yield gauge("hlcstore_requests_open", "Requests in etcd that wait, or were refused.", len(found["requests"]))
    yield gauge("hlcstore_cut_revision", "The revision up to which the log is cut.", found["cut"])
    yield counter("hlcstore_appends_total", "Appends of the coordinator.", counters.of("appends"))
    yield counter("hlcstore_joins_total", "Joins that it appended.", counters.of("joins"))
    yield counter("hlcstore_joins_refused_total", "Joins that it refused.", counters.of("joins_refused"))
    yield counter("hlcstore_lost_total", "Lost nodes that it retired.", counters.of("lost"))
    members = found["members"]
    yield gauges("hlcstore_etcd_database_bytes", "The size of a member's database.",
                 [({"member": member["address"]}, member["bytes"]) for member in members])  # fmt: skip
    yield gauges("hlcstore_etcd_no_space", "1 where a member is above its quota.",
                 [({"member": member["address"]}, member["no_space"]) for member in members])  # fmt: skip
    yield counters.family("http_answers", "hlcstore_http_answers_total", "Answers over HTTP, by status.")
    yield from metrics.process_families()
