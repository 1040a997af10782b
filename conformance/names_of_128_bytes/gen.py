import sys
most = 'A' * 128
for text in ["CONNECT TO 'D' USER 'ALICE'", f'CREATE SCHEMA {most}', f'CREATE SCHEMA {most}A', f'CREATE SCHEMA {most}', f'CREATE SCHEMA "{most}a"',
             f'CREATE SCHEMA "{most[1:]}a"', f"SET SCHEMA '{most}'", f"SET SCHEMA '{most}A'"]:
    sys.stdout.write(text + ';')
