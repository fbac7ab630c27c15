"""The lock of the package."""
import os
from threading import RLock

# The lock that keeps calls apart, on any store, auditor or view. A signal's handler or a finalizer can run in the middle of a
# call, and may itself call. With a lock for each object, two threads that are interrupted so could each hold the lock that
# the other one waits for. No order of the locks prevents that, because nobody orders interruptions. The thread that holds
# the lock may take it again.
LOCK = RLock()

# A child process has only the thread that forked. It is made while no other thread is in a call.
os.register_at_fork(before=LOCK.acquire, after_in_parent=LOCK.release, after_in_child=LOCK.release)
