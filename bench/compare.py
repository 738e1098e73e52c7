"""Times two programs on one file, which each hashes sixteen times a run, in turns.

Prints the least user time of each as MB/s (reading the file is mostly system time, and alike for both), the same with
system time, and the ratio of the user times: above 1.00 the first program is the faster.
"""
import os
import subprocess
import sys

TIMES, ROUNDS = 16, 15


def run(command, name):
    before = os.times()
    out = subprocess.run([command] + [name] * TIMES, stdout=subprocess.PIPE, check=True).stdout
    after = os.times()
    user = after.children_user - before.children_user
    return user, user + after.children_system - before.children_system, out


def main():
    name, ours, peer = sys.argv[1:]
    size = os.path.getsize(name) * TIMES / 1e6
    user, whole = {}, {}
    for _ in range(ROUNDS):
        outs = []
        for command in (ours, peer):
            u, w, out = run(command, name)
            user[command] = min(u, user.get(command, u))
            whole[command] = min(w, whole.get(command, w))
            outs.append(out)
        if outs[0] != outs[1]:
            sys.exit("the two programs print different hashes")
    for command in (ours, peer):
        print("%-12s %4.0f MB/s user, %4.0f MB/s user and system" % (os.path.basename(command), size / user[command], size / whole[command]))
    print("ratio %.2f" % (user[peer] / user[ours]))


main()
