#!/usr/bin/env python3
"""Times `tsl circuit` on programs of 8 to 64 states over ten predicate terms, and compares how many gates it writes with those of a sum
of products for each output and each next digit of the state, which `circuit_tools.py` counts. With 8 states it takes less than a second,
and it always writes fewer gates."""
import subprocess

import plain
from circuit_tools import products_alone, read_circuit
from crossing import crossing
from measuring import PROGRAM, built, measured


def main():
    with built() as folder:
        print(f"{'states':>8} {'seconds':>9} {'growth':>7} {'peak KiB':>9} {'gates':>9} {'products':>9} {'ratio':>7}")
        before = None
        for states in (8, 16, 32, 64):
            text, command = crossing(states), [PROGRAM, "circuit", "--bound=15"]
            seconds, peak, _ = measured(folder, text.encode(), command)
            written = subprocess.run(command, input=text, capture_output=True, text=True).stdout
            gates = len(read_circuit(written).gates)
            at = text.index("tslprogram 1\n")
            products = products_alone(plain.Space(plain.Reader(text[:at]).spec()), plain.Program(text[at:]))
            growth = f"{seconds / before:7.2f}" if before else "      -"
            print(f"{states:8} {seconds:9.5f} {growth} {peak:9} {gates:9} {products:9} {gates / products:7.4f}")
            assert gates < products and (states > 8 or seconds < 1)
            before = seconds


main()
