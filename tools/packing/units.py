"""Unit files of systemd for `grove serve`, `grove page`, `grove save` and the worker of `cluster/`."""

from __future__ import annotations

UNIT = """\
# grove @COMMAND@ as a service: @WHAT@.
#
# It needs a document with a tree (FORMATS.md), which everybody may read. Its store is made of that at the first start:
#
#   install -D -m 644 @PREFIX@/share/doc/grove/examples/settings.json /etc/grove/tree.json
#   systemctl enable --now grove-@COMMAND@
#
# Each round is kept in /var/lib/grove-@COMMAND@/store.grove, from which a restart goes on. Of the document only the
# names are looked at then.@KEPT@
[Unit]
Description=grove @COMMAND@, @WHAT@
Documentation=man:grove(1)
ConditionPathExists=/etc/grove/tree.json
After=network.target

[Service]
Type=exec
# Further words. `systemctl edit grove-@COMMAND@` gives others (Environment= again), and so does a line
# GROVE_@NAME@="--port @PORT@" in /etc/default/grove.
#   --verbose   the journal gets who comes and goes and why, which lines are refused, and what was done in each minute.
#   --idle 600  @IDLE@
# It listens at 127.0.0.1; --bind ADDRESS is for another address, and every client that reaches that may read and write.
Environment="GROVE_@NAME@=--port @PORT@ --verbose --idle 600"
EnvironmentFile=-/etc/default/grove
ExecStart=@PREFIX@/bin/grove @COMMAND@ --tree /etc/grove/tree.json \\
    --data /var/lib/grove-@COMMAND@/store.grove $GROVE_@NAME@
StateDirectory=grove-@COMMAND@
# What long lines took goes back to the system once they are answered.
Environment=GLIBC_TUNABLES=@SERVER_MEMORY@
# Status 1 is a document or a file of rounds that is refused, 2 a wrong word: neither gets better by another start.
Restart=on-failure
RestartPreventExitStatus=1 2
# SIGTERM ends it at once. What was replied is kept.
KillSignal=SIGTERM
TimeoutStopSec=10

# Limits. There are 16 connections with a thread each, and up to 16 workers.
MemoryMax=2G
TasksMax=64
LimitNOFILE=64

@RIGHTS@

[Install]
WantedBy=multi-user.target
"""

SAVE = """\
# grove save as a service that runs once: the tree and records of a server, kept in a file. Its timer runs it.
#
#   systemctl enable --now grove-save.timer
#   systemctl start grove-save      # once, now
#
# A server begins with what was kept by: install -m 644 /var/lib/grove/tree.json /etc/grove/tree.json
[Unit]
Description=grove save, the records of a server in a file
Documentation=man:grove(1)
After=network.target grove-page.service grove-serve.service

[Service]
Type=oneshot
# The words before the file. `systemctl edit grove-save` gives others (Environment= again), and so does a line
# GROVE_SAVE="--port 8080" in /etc/default/grove. The port is that of `grove page`, or of --http of `grove serve`.
Environment="GROVE_SAVE=--port 8080"
EnvironmentFile=-/etc/default/grove
ExecStart=@PREFIX@/bin/grove save $GROVE_SAVE /var/lib/grove/tree.json
# The file is replaced in one step: status 1 (the server has no document) and 3 (it can't be reached, or the file not be
# written) leave the one before.
StateDirectory=grove
# A server that never ends its answer would hold up the timer for good.
TimeoutStartSec=60

# Limits.
MemoryMax=256M
TasksMax=16
LimitNOFILE=64

@RIGHTS@
"""

SAVE_TIMER = """\
# Each quarter of an hour the records of a server are kept in a file (grove-save.service).
[Unit]
Description=grove save, each quarter of an hour
Documentation=man:grove(1)

[Timer]
OnCalendar=*:0/15
AccuracySec=10s
# A time that was missed while the machine was off is made up for.
Persistent=yes

[Install]
WantedBy=timers.target
"""

WORK = """\
# grove-work as a service: a worker that does the jobs of a store on an etcd cluster (CLUSTER.md). Any number may run.
#
#   systemctl enable --now grove-work
[Unit]
Description=grove-work, a worker on an etcd cluster
Documentation=man:grove-work(1)
After=network-online.target
Wants=network-online.target

[Service]
Type=exec
# Its words. `systemctl edit grove-work` gives others (Environment= again), and so does a line GROVE_WORK="--verbose" in
# /etc/default/grove.
#   --members, --store     where the jobs are
#   --cacert, --cert, --key, --user     as etcdctl has them; the password may stand in ETCDCTL_PASSWORD
#   --work MODULE:FUNCTION  what an access stands for; the module is found by PYTHONPATH
#   --verbose               the journal gets a line for each event
#   --metrics PORT          counts of events over HTTP
Environment="GROVE_WORK=--members 127.0.0.1:2379 --verbose"
EnvironmentFile=-/etc/default/grove
ExecStart=@PREFIX@/bin/grove-work $GROVE_WORK
# SIGTERM ends it after the group that goes on, with the work that belongs to it.
TimeoutStopSec=300
# Whatever status it ends with, since work may end it with any, and no member of etcd may have answered for a minute. A
# wrong word is told each time.
Restart=always
RestartSec=5

# Limits. Each job that waits has a thread (--most-waiting).
MemoryMax=1G
TasksMax=1024
LimitNOFILE=256

@RIGHTS@

[Install]
WantedBy=multi-user.target
"""

RIGHTS = """\
# A user of its own for as long as it runs, and no rights beyond reading, and talking over @SPEAKS@.
DynamicUser=yes
NoNewPrivileges=yes
CapabilityBoundingSet=
AmbientCapabilities=
UMask=0077
ProtectSystem=strict
ProtectHome=yes
PrivateTmp=yes
PrivateDevices=yes
ProtectClock=yes
ProtectControlGroups=yes
ProtectHostname=yes
ProtectKernelLogs=yes
ProtectKernelModules=yes
ProtectKernelTunables=yes
ProtectProc=invisible
RestrictAddressFamilies=@FAMILIES@
RestrictNamespaces=yes
RestrictRealtime=yes
RestrictSUIDSGID=yes
LockPersonality=yes
MemoryDenyWriteExecute=yes
SystemCallArchitectures=native
SystemCallFilter=@system-service
SystemCallErrorNumber=EPERM
"""

SERVE = {
    "COMMAND": "serve",
    "NAME": "SERVE",
    "WHAT": "the records of a tree over TCP",
    "KEPT": "",
    "PORT": "7777",
    "IDLE": "a client that sends no whole line for ten minutes loses its connection slot; there are 16.",
}
PAGE = {
    "COMMAND": "page",
    "NAME": "PAGE",
    "WHAT": "the records of a tree over HTTP, with a page to look at them",
    "KEPT": "\n# `curl http://127.0.0.1:8080/document` prints a document of what there is now.",
    "PORT": "8080",
    "IDLE": "a client that sends no whole request for ten minutes loses its connection slot; there are 16.",
}


# Names of members are looked up by the C library, which asks the system over these.
OF_WORK = {"SPEAKS": "TCP and looking up names", "FAMILIES": "AF_INET AF_INET6 AF_UNIX AF_NETLINK"}
OF_SERVER = {"SPEAKS": "TCP", "FAMILIES": "AF_INET AF_INET6"}


def units(prefix: str, server_memory: str) -> dict[str, str]:
    """The unit files by name, for a program below this prefix."""
    place = {"PREFIX": prefix, "SERVER_MEMORY": server_memory}
    servers = {f"grove-{of['COMMAND']}.service": filled(UNIT, {**of, **OF_SERVER, **place}) for of in (SERVE, PAGE)}
    return {
        **servers,
        "grove-save.service": filled(SAVE, {**OF_SERVER, **place}),
        "grove-save.timer": SAVE_TIMER,
        "grove-work.service": filled(WORK, {**OF_WORK, **place}),
    }


def filled(text: str, values: dict[str, str]) -> str:
    text = text.replace("@RIGHTS@\n", RIGHTS)
    for name, value in values.items():
        text = text.replace(f"@{name}@", value)
    return text
