"""What agents tell their watchers of leases and groups, each by the clock of the test: of what parts a pause is."""
import json, socket, threading, time

from beats import clock


class LeaseEvents:
    """Watches all agents, over their restarts."""

    def __init__(self, agents):
        self.agents, self.rows, self.ends = agents, [], False
        for i in range(agents.count):
            threading.Thread(target=self.watch, args=(i,), daemon=True).start()

    def watch(self, i):
        while not self.ends:
            try:
                with socket.socket(socket.AF_UNIX, socket.SOCK_STREAM) as link:
                    link.connect(self.agents.path(i, "sock"))
                    link.sendall(b'{"do":"watch"}\n')
                    for line in link.makefile():
                        event = json.loads(line)
                        if event.get("event") in ("lease", "group"):
                            self.rows.append((clock(), i, event))
            except (OSError, ValueError):
                pass
            time.sleep(0.05)

    def told(self, name, since):
        """What was told of a lease, and of groups, behind a time, in words."""
        for at, i, event in sorted(list(self.rows), key=lambda row: row[0]):
            if at < since:
                continue
            if event["event"] == "lease" and event["name"] == name:
                yield "%+.2f %s at %d (%d)" % (at - since, "held" if event["held"] else "lost", i, event["epoch"])
            elif event["event"] == "group":
                yield "%+.2f %d: %s of %s" % (at - since, i, event["phase"], event["members"])
