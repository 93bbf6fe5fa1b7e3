#!/usr/bin/env python3
"""Runs a command on a frame that comes in two parts, and stops and continues it between them: prints what it prints, and ends with its status.

Its standard input is a socket with a time limit: there a read that is stopped and continued is interrupted (signal(7)).
"""
import os
import signal
import socket
import struct
import subprocess
import sys
import time

ours, theirs = socket.socketpair()
theirs.setsockopt(socket.SOL_SOCKET, socket.SO_RCVTIMEO, struct.pack("ll", 60, 0))
run = subprocess.Popen(sys.argv[1:], stdin=theirs, stdout=subprocess.PIPE, start_new_session=True)
theirs.close()
ours.sendall(b"20040F\n30010C")
answer = run.stdout.readline() + run.stdout.readline()
time.sleep(0.2)
os.killpg(run.pid, signal.SIGSTOP)
time.sleep(0.2)
os.killpg(run.pid, signal.SIGCONT)
time.sleep(0.2)
ours.sendall(b"2107\n")
ours.close()
sys.stdout.buffer.write(answer + run.stdout.read())
sys.exit(run.wait())
