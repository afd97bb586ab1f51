"""A plain program of sessions, their tails, `gather` and `relay`, written from the rules alone (docs/protocol.md, docs/turns.md, docs/scripts.md,
specs/): it has no code in common with the built one. checks/alike compares what the two print.

    python3 checks/plain session [--chance N] [--turns N] [--tail T] < SCRIPT
    python3 checks/plain gather PROFILE NODE .. < LINES
    python3 checks/plain relay [--instance I] UP NODE DOWN < LINES

In a session nodes hand over messages as objects, not as octets, and a sender looks at nothing that no node of a session can send; a receiver does.
One producer's commands come in their order; those of several come in the order of the script. Sockets (`fabric udp`) are not there."""
