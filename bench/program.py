"""The time of the program `solve` on the text of 128 equations, and the part that reading takes: the same text without its
last number is read whole and refused. Medians of repeated runs, each a process of its own."""
import random
import statistics
import subprocess
import sys
import tempfile
import time

SIZE, RUNS = 128, 41


def run_time(program, text):
    with tempfile.NamedTemporaryFile() as file:
        file.write(text.encode())
        file.flush()
        times = []
        for _ in range(RUNS):
            start = time.perf_counter()
            printed = subprocess.run([program, file.name], stdout=subprocess.PIPE, check=True).stdout
            times.append(time.perf_counter() - start)
        return statistics.median(times) * 1e3, printed.split(b"\n")[0].decode()


def main():
    rng = random.Random(128)
    numbers = [f"{rng.uniform(-9, 9):.12f}" for _ in range(SIZE * (SIZE + 1))]
    head = f"system {SIZE}\n"
    whole, answer = run_time(sys.argv[1], head + " ".join(numbers))
    reading, refusal = run_time(sys.argv[1], head + " ".join(numbers[:-1]))
    empty, _ = run_time(sys.argv[1], "")
    print(f"solve, the program, on a text of {SIZE} equations of decimals: {whole:.1f} ms ({answer})")
    print(f"  reading alone ({refusal}): {reading:.1f} ms; starting and ending alone: {empty:.1f} ms")


main()
