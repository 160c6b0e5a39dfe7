"""Graphs of calls, as a dictionary from each function to those that it names: circles and ways. tools/calls.py and tools/stacks.py use them."""

import collections


class Wrong(Exception):
    """What this tool does not know, or what does not agree: it cannot vouch for the graph."""


def expect(holds, sentence):
    if not holds:
        raise Wrong(sentence)


def components(graph):
    """Strongly connected components, by Tarjan, without recursion."""
    number, low, stack, on_stack, found = {}, {}, [], set(), []
    for root in graph:
        work = [] if root in number else [(root, None)]
        while work:
            node, below = work.pop()
            if below is None:
                number[node] = low[node] = len(number)
                stack.append(node)
                on_stack.add(node)
                below = iter(sorted(graph[node]))
            for callee in below:
                if callee not in number:
                    work += [(node, below), (callee, None)]
                    break
                if callee in on_stack:
                    low[node] = min(low[node], low[callee])
            else:
                if low[node] == number[node]:
                    at = stack.index(node)
                    found.append(stack[at:])
                    on_stack.difference_update(stack[at:])
                    del stack[at:]
                if work:
                    low[work[-1][0]] = min(low[work[-1][0]], low[node])
    return found


def circles(graph):
    """The members of each circle of calls: more than one function, or one that calls itself."""
    return sorted(sorted(members) for members in components(graph) if len(members) > 1 or members[0] in graph[members[0]])


def way(graph, starts, ends):
    """A shortest way of one or more calls from one of `starts` to one of `ends`, or None."""
    before, todo = {}, collections.deque((start, callee) for start in sorted(starts) for callee in sorted(graph[start]))
    while todo:
        caller, node = todo.popleft()
        if node in before:
            continue
        before[node] = caller
        if node in ends:
            path = [node]
            while True:
                path.insert(0, before[path[0]])
                if path[0] in starts:
                    return path
        todo.extend((node, callee) for callee in sorted(graph[node]))
    return None


def reached(graph, starts):
    found, todo = set(), list(starts)
    while todo:
        node = todo.pop()
        if node not in found:
            found.add(node)
            todo.extend(graph[node])
    return found


def way_round(graph, starts):
    """From one of `starts` into the nearest circle that they reach, and once round it; or None."""
    on_circle = {member for members in circles(graph) for member in members}
    path = [min(on_circle & starts)] if on_circle & starts else way(graph, starts, on_circle)
    return path and path + way(graph, {path[-1]}, {path[-1]})[1:]
