"""What threads sleep on."""
import threading


class Bell:
    """What one thread sleeps on, and any other may ring, also before."""

    __slots__ = ("_lock",)

    def __init__(self) -> None:
        self._lock = threading.Lock()
        self._lock.acquire()

    def ring(self) -> None:
        """Wakes who sleeps, or who sleeps next."""
        try:
            self._lock.release()
        except RuntimeError:
            pass  # it was rung before, and nobody has slept since

    def sleep(self, seconds: float) -> bool:
        """Sleeps until it is rung, or this long. Whether it was rung."""
        return self._lock.acquire(timeout=min(max(seconds, 0.0), threading.TIMEOUT_MAX))
