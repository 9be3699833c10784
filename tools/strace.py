"""Whether `strace` is there and may trace, for the tools that look at the calls that the program makes of the system."""
import subprocess


def fault():
    """Why nothing can be traced, or nothing."""
    try:
        done = subprocess.run(["strace", "-o", "/dev/null", "true"], stderr=subprocess.PIPE, text=True, check=False)
    except FileNotFoundError:
        return "strace isn't there: tools/setup installs it"
    return f"strace may not trace: {done.stderr.strip()}" if done.returncode else ""
