"""Lists the bases of the complete rig of 8 points with SageMath, a general package: `sage -python bench/package.py`.

Not part of `bench/run`: SageMath has to be installed for it. Prints the nanoseconds of processor time for a base, for each of Sage's
kinds of matroid that can hold a graph.
"""
import time

from sage.all import GF, Matroid, graphs


def cost(matroid):
    began = time.process_time()
    count = sum(1 for _ in matroid.bases())
    return count, (time.process_time() - began) / count * 1e9


def main():
    graph = graphs.CompleteGraph(8)
    kinds = {
        "graphic": Matroid(graph=graph),
        "regular": Matroid(graph=graph, regular=True),
        "binary": Matroid(field=GF(2), matrix=graph.incidence_matrix().change_ring(GF(2))),
    }
    for name, matroid in kinds.items():
        count, each = cost(matroid)
        print(f"{name}: {count} bases, {each:.0f} ns a base")


main()
