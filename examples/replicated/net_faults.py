"""Faults of the network, for `run`: partitions between any two programs, or of one from all others, and slow ones."""

MODEL = "model"  # is not parted: it only compares


def with_network(faults, net):
    """Adds these faults to others, of programs that have networks of their own."""
    chance = faults.chance

    def names():
        """Returns the programs that have a network and run."""
        programs = faults.programs
        running = [*programs.replicas, *programs.writers, "coordinator", *programs.members()]
        return [name for name in running if name in net.hosts]

    def part(pairs):
        for pair in pairs:
            net.part(*pair)
        faults.after(1, 8, join, pairs)

    def join(pairs):
        for pair in pairs:
            net.join(*pair)

    def part_two():
        one, other = chance.sample(names(), 2)
        if chance.random() < 0.3:
            part([(one, other)])
            return f"what {one} sends to {other} is lost"
        part([(one, other), (other, one)])
        return f"{one} and {other} are parted"

    def isolate():
        """One that is parted from all: no other one of etcd's members may be away meanwhile."""
        name = chance.choice(names())
        if name in faults.programs.members():
            if faults.member_down is not None:
                return None
            faults.member_down = name
            faults.after(9, 10, again)
        part([pair for other in names() if other != name for pair in ((name, other), (other, name))])
        return f"{name} is parted from all others"

    def again():
        faults.member_down = None

    def slow_down():
        name = chance.choice(names())
        if name in net.slowed:
            return None
        net.slow(name)
        faults.after(2, 6, net.hasten, name)
        return f"{name} sends slowly"

    faults.faults += [part_two] * 6 + [isolate] * 2 + [slow_down] * 2
