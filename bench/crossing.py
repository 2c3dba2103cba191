"""Programs of many states over ten predicate terms."""


def crossing(states):
    """A program of so many states that goes four ways from each by two of ten tests, where each eighth state, which no way passes by,
    takes the update asked for. Four responses are assumed, so that the automaton keeps which of these are due."""
    assumed = " ".join(f"p{i} a -> F p{i + 4} a;" for i in range(4))
    asked = "p8 a && p9 a -> (p9 a || [out <- g a]) && F [out <- f a];"
    spec = f"always assume {{ {assumed} }}\nalways guarantee {{ {asked} }}\n"
    nodes, roots = [], []
    for state in range(states):
        first, stop = len(nodes), state // 8 * 8 + 8
        update = "g a" if state % 8 else "f a"
        nodes += [f"set [out <- {update}] go {min(state + jump, stop) % states}" for jump in (1, 2, 3, 4)]
        nodes += [f"if p{state % 10} a then {first + way} else {first + way + 1}" for way in (0, 2)]
        nodes.append(f"if p{(state + 3) % 10} a then {first + 4} else {first + 5}")
        roots.append(first + 6)
    lines = ["tslprogram 1", "input a", "output out"]
    lines += [f"node {number} {node}" for number, node in enumerate(nodes)]
    lines += [f"state {number} at {root}" for number, root in enumerate(roots)]
    return spec + "\n".join([*lines, "end", ""])
