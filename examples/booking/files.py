"""How many files a process may have open. Each connection is one, and the system allows few unless it is asked."""
import resource


def allow_files(count: int) -> None:
    """Lets this process have this many open files, or as many as it may have."""
    soft, hard = resource.getrlimit(resource.RLIMIT_NOFILE)
    most = count if hard == resource.RLIM_INFINITY else min(count, hard)
    if soft != resource.RLIM_INFINITY and soft < most:
        resource.setrlimit(resource.RLIMIT_NOFILE, (most, hard))
