import sys
import krbls

octets = sys.stdin.buffer.read()
refusal = krbls.judge(octets)
if refusal:
    print(f"{refusal.reason} at {refusal.place} in {refusal.path}")
else:
    for name, value in krbls.message(octets).items():
        print(name, value)
