"""Watches an interval shrink: a desk opens an angle, and its replies are drawn as bars until they are one unit wide.

    python3 examples/desk.py 13/31          at the top of the repository
"""
import subprocess, sys, time
desk = subprocess.Popen(["./run", "desk", "--rounds", "0"], stdin=subprocess.PIPE, stdout=subprocess.PIPE, text=True, bufsize=1)
desk.stdin.write(f"open {sys.argv[1]} 400\n")
for _ in range(1000):
    words = desk.stdout.readline().split()
    if words[0] == "refused":
        print(*words)
        break
    low, high = int(words[-3]), int(words[-1])
    left, wide = (low / 2**32 - 1) * 60, (high - low) / 2**32 * 60
    print(" " * int(left) + "#" * (1 + int(wide)), f"{low / 2**32:.10f} {high / 2**32:.10f}")
    if high - low <= 1:
        break
    time.sleep(0.0005)
    desk.stdin.write("read 0\n")
print(desk.communicate("quit\n")[0])
