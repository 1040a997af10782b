import sys
sys.stdout.buffer.write(b"CONNECT TO 'D' USER 'ALICE';" + b' ' * 65536 + b';')
