"""Logs of a hundred kinds with known instants, made at random, for tools/try_guess.py: what programs write, with the messages that they have.

A kind is a pattern of Python's `format`, with the parts of a moment that sample_dates.of names, and of a message: `n`, a number; `ip`, an
address; `word` and `text`, words; `path`, a path; `ip6`, an address of IPv6. A kind is written at an offset of its own; where its lines don't
say it, it has to be given, and so has the year.
"""

import datetime
import random
from typing import NamedTuple

from sample_dates import Moment, of

WORDS = "user order request until since retry port size took cache index page query worker queue backup mail disk error timeout token job".split()
PATHS = ["/", "/a", "/static/app.js", "/orders/17", "/2023/12/24/report", "/api/v1.2.3/items"]

# A name, the pattern of a line, and the offset in minutes at which the moments are written; `Z` in a line is at 0.
KINDS: list[tuple[str, str, int]] = [
    ("nginx access", '{ip} - - [{day:02}/{mon}/{year:04}:{clock} {z}] "GET {path} HTTP/1.1" 200 {n}', 120),
    ("apache access of IPv6", '{ip6} - - [{day:02}/{mon}/{year:04}:{clock} {z}] "GET {path} HTTP/1.1" 200 {n}', 0),
    ("apache vhosts", 'www.example.org:443 {ip} - - [{day:02}/{mon}/{year:04}:{clock} {z}] "POST {path} HTTP/1.1" 302 {n} "-" "curl/7.88.1"', -420),
    ("nginx error", "{year:04}/{month:02}/{day:02} {clock} [error] {n}#{n}: *{n} {text}, client: {ip}", 120),
    ("apache error", "[{wd} {mon} {day:02} {clock}.{us} {year:04}] [core:error] [pid {n}] {text}", 60),
    ("postgres", "{year:04}-{month:02}-{day:02} {clock}.{ms} UTC [{n}] LOG:  duration: 3.217 ms", 0),
    ("postgres CET", "{year:04}-{month:02}-{day:02} {clock}.{ms} CET [{n}] LOG:  {text}", 60),
    ("postgres csv", "{year:04}-{month:02}-{day:02} {clock}.{ms} UTC,\"{word}\",\"{word}\",{n},\"{ip}:{n}\",{n}.4d,1,\"\",,2,LOG,00000,\"{text}\"", 0),
    ("mysql 8", "{year:04}-{month:02}-{day:02}T{clock}.{us}Z {n} [Note] [MY-010747] [Server] {text}", 0),
    ("mysql 5.5", "{yy:02}{month:02}{day:02} {clock} [Note] {text}", 60),
    ("mariadb", "{year:04}-{month:02}-{day:02} {hour:2}:{minute:02}:{second:02} {n} [Note] {text}", 60),
    ("mongodb", '{{"t":{{"$date":"{year:04}-{month:02}-{day:02}T{clock}.{ms}{zc}"}},"s":"I","c":"NETWORK","id":{n},"msg":"{text}"}}', 60),
    ("redis", "{n}:M {day:02} {mon} {year:04} {clock}.{ms} * {text}", -180),
    ("syslog", "{mon} {day:2} {clock} host {word}[{n}]: {text}", 120),
    ("syslog sshd", "{mon} {day:2} {clock} host sshd[{n}]: Accepted publickey for {word} from {ip} port {n} ssh2", -300),
    ("syslog 5424", "<{n}>1 {year:04}-{month:02}-{day:02}T{clock}.{us}{zc} host {word} {n} ID47 - {text}", 330),
    ("rsyslog", "{year:04}-{month:02}-{day:02}T{clock}.{us}{zc} host {word}[{n}]: {text}", 60),
    ("journal short-precise", "{mon} {day:02} {clock}.{us} host {word}[{n}]: {text}", 60),
    ("journal short-full", "{wd} {year:04}-{month:02}-{day:02} {clock} CEST host {word}[{n}]: {text}", 120),
    ("journal short-iso", "{year:04}-{month:02}-{day:02}T{clock}{z} host {word}[{n}]: {text}", 120),
    ("journal short-unix", "{unix}.{us} host {word}[{n}]: {text}", 0),
    ("journal json", '{{"_HOSTNAME":"host","__REALTIME_TIMESTAMP":"{unix}{us}","MESSAGE":"{text}"}}', 0),
    ("docker json", '{{"log":"{text}\\n","stream":"stdout","time":"{year:04}-{month:02}-{day:02}T{clock}.{ns}Z"}}', 0),
    ("docker compose", "web-1  | {year:04}-{month:02}-{day:02}T{clock}.{ns}Z {text}", 0),
    ("klog", "I{month:02}{day:02} {clock}.{us} {n:7} {word}.go:{n}] {text}", 0),
    ("kubernetes audit", '{{"kind":"Event","level":"Metadata","auditID":"{n}","verb":"get","requestReceivedTimestamp":"{year:04}-{month:02}-{day:02}T{clock}.{us}Z"}}', 0),
    ("containerd", 'time="{year:04}-{month:02}-{day:02}T{clock}.{ns}Z" level=info msg="{text}"', 0),
    ("logfmt offset", 'level=info ts={year:04}-{month:02}-{day:02}T{clock}.{ms}{zc} caller={word}.go:{n} msg="{text}"', 120),
    ("go log", "{year:04}/{month:02}/{day:02} {clock} {text}", 0),
    ("go log microseconds", "{year:04}/{month:02}/{day:02} {clock}.{us} {word}.go:{n}: {text}", 0),
    ("go time", "{text} at {year:04}-{month:02}-{day:02} {clock}.{ns} {z} CET m=+0.0{n}", 60),
    ("zap", '{{"level":"info","ts":{unix}.{us},"caller":"{word}/{word}.go:{n}","msg":"{text}"}}', 0),
    ("zerolog", '{{"level":"info","time":"{year:04}-{month:02}-{day:02}T{clock}Z","message":"{text}"}}', 0),
    ("bunyan", '{{"name":"{word}","hostname":"host","pid":{n},"level":30,"msg":"{text}","time":"{year:04}-{month:02}-{day:02}T{clock}.{ms}Z","v":0}}', 0),
    ("pino", '{{"level":30,"time":{unix}{ms},"pid":{n},"hostname":"host","msg":"{text}"}}', 0),
    ("winston", '{{"level":"info","message":"{text}","timestamp":"{year:04}-{month:02}-{day:02}T{clock}.{ms}Z"}}', 0),
    ("logstash", '{{"@timestamp":"{year:04}-{month:02}-{day:02}T{clock}.{ms}Z","@version":"1","message":"{text}"}}', 0),
    ("cloudtrail", '{{"eventVersion":"1.08","eventTime":"{year:04}-{month:02}-{day:02}T{clock}Z","eventName":"GetObject","sourceIPAddress":"{ip}"}}', 0),
    ("python logging", "{year:04}-{month:02}-{day:02} {clock},{ms} INFO {text}", 120),
    ("python logging name", "[{word}] {year:04}-{month:02}-{day:02} {clock},{ms} WARNING {text}", -480),
    ("django", '[{day:02}/{mon}/{year:04} {clock}] "GET {path} HTTP/1.1" 200 {n}', 60),
    ("gunicorn", "[{year:04}-{month:02}-{day:02} {clock} {z}] [{n}] [INFO] {text}", 60),
    ("celery", "[{year:04}-{month:02}-{day:02} {clock},{ms}: INFO/MainProcess] {text}", 0),
    ("uwsgi", "[pid: {n}|app: 0|req: {n}/{n}] {ip} () {{40 vars in {n} bytes}} [{wd} {mon} {day:2} {clock} {year:04}] GET {path} => generated {n} bytes", 120),
    ("log4j", "{year:04}-{month:02}-{day:02} {clock},{ms} [main] ERROR {word}.{word} - {text}", 60),
    ("logback", "{clock}.{ms} [main] INFO  {word} - started {year:04}-{month:02}-{day:02} {clock}", 60),
    ("spring boot 2", "{year:04}-{month:02}-{day:02} {clock}.{ms}  INFO {n} --- [           main] {word} : {text}", 60),
    ("spring boot 3", "{year:04}-{month:02}-{day:02}T{clock}.{ms}{zc}  INFO {n} --- [           main] {word} : {text}", 60),
    ("tomcat", "{day:02}-{mon}-{year:04} {clock}.{ms} INFO [main] {word}.{word} {text}", 60),
    ("java.util.logging", "{mon} {day:02}, {year:04} {hour12}:{minute:02}:{second:02} {half} {word}.{word} {word}", -300),
    ("websphere", "[{month}/{day}/{yy:02} {hour}:{minute:02}:{second:02}:{ms} EST] 00000{n} {word} A {text}", -300),
    ("hadoop", "{year:04}-{month:02}-{day:02} {clock},{ms} INFO {word}.{word}: {text}", 0),
    ("spark", "{yy:02}/{month:02}/{day:02} {clock} INFO {word}: {text}", 0),
    ("hdfs", "{yy:02}{month:02}{day:02} {hour:02}{minute:02}{second:02} {n} INFO {word}: {text}", 0),
    ("kafka", "[{year:04}-{month:02}-{day:02} {clock},{ms}] INFO [{word} id={n}] {text} ({word})", 0),
    ("zookeeper", "{year:04}-{month:02}-{day:02} {clock},{ms} [myid:{n}] - INFO  [{word}:{n}] - {text}", 0),
    ("cassandra", "INFO  [main] {year:04}-{month:02}-{day:02} {clock},{ms} {word}.java:{n} - {text}", 0),
    ("elasticsearch", "[{year:04}-{month:02}-{day:02}T{clock},{ms}][INFO ][{word}] [node-1] {text}", 0),
    ("jenkins", "{year:04}-{month:02}-{day:02} {clock}.{ms}{z} [id={n}]\tINFO\t{word}: {text}", 60),
    ("gitlab", '{{"severity":"INFO","time":"{year:04}-{month:02}-{day:02}T{clock}.{ms}Z","correlation_id":"{n}","message":"{text}"}}', 0),
    ("rails", "I, [{year:04}-{month:02}-{day:02}T{clock}.{us} #{n}]  INFO -- : {text}", 120),
    ("rails started", 'Started GET "{path}" for {ip} at {year:04}-{month:02}-{day:02} {clock} {z}', 120),
    ("laravel", "[{year:04}-{month:02}-{day:02} {clock}] local.ERROR: {text}", 60),
    ("php", "[{day:02}-{mon}-{year:04} {clock} UTC] PHP Warning:  {text} on line {n}", 0),
    ("php zone", "[{day:02}-{mon}-{year:04} {clock} Europe/Berlin] PHP Warning:  {text} on line {n}", 60),
    ("squid", "{unix}.{ms} {n:6} {ip} TCP_MISS/200 {n} GET http://example.org{path} - DIRECT/{ip} text/html", 0),
    ("haproxy", "{mon} {day:2} {clock} lb haproxy[{n}]: {ip}:{n} [{day:02}/{mon}/{year:04}:{clock}.{ms}] http-in static/srv1 0/0/0/{n} 200", 60),
    ("envoy", '[{year:04}-{month:02}-{day:02}T{clock}.{ms}Z] "GET {path} HTTP/1.1" 200 - 0 {n} "-" "curl" "{ip}:{n}"', 0),
    ("traefik", '{ip} - - [{day:02}/{mon}/{year:04}:{clock} {z}] "GET {path} HTTP/2.0" 200 {n} "-" "-" {n} "web@docker" 3ms', 0),
    ("caddy", '{{"level":"info","ts":{unix}.{us},"logger":"http.log.access","msg":"handled request","status":200,"size":{n}}}', 0),
    ("iis", "{year:04}-{month:02}-{day:02} {clock} {ip} GET {path} - 443 - {ip} Mozilla/5.0 200 0 0 {n}", 0),
    ("cloudfront", "{year:04}-{month:02}-{day:02}\t{clock}\tLHR62-C2\t{n}\t{ip}\tGET\t{path}", 0),
    ("s3", 'a1b2 bucket [{day:02}/{mon}/{year:04}:{clock} {z}] {ip} - {n} REST.GET.OBJECT key "GET {path} HTTP/1.1" 200 - {n}', 0),
    ("alb", 'https {year:04}-{month:02}-{day:02}T{clock}.{us}Z app/lb/{n} {ip}:{n} {ip}:80 0.000 0.001 0.000 200 200 34 366 "GET {path} HTTP/1.1"', 0),
    ("vpc flow", "2 {n} eni-1 {ip} {ip} 443 {n} 6 10 840 {unix} {unix} ACCEPT OK", 0),
    ("exim", "{year:04}-{month:02}-{day:02} {clock} 1a2B3c-0004-Xy <= {word}@example.org H=mail [{ip}] S={n}", 120),
    ("postfix", "{mon} {day:2} {clock} mail postfix/smtp[{n}]: 3F2A1: to=<{word}@example.org>, delay=0.{n}, status=sent", 60),
    ("dovecot", "{mon} {day:02} {clock} imap-login: Info: Login: user=<{word}>, method=PLAIN, rip={ip}, lip={ip}", 60),
    ("fail2ban", "{year:04}-{month:02}-{day:02} {clock},{ms} fail2ban.actions [{n}]: NOTICE [sshd] Ban {ip}", 60),
    ("cisco asa", "{mon} {day:02} {year:04} {clock}: %ASA-6-302013: Built inbound TCP connection {n} for outside:{ip}/{n}", 0),
    ("cisco ios", "{mon} {day:2} {clock}.{ms}: %LINK-3-UPDOWN: Interface GigabitEthernet0/{n}, {text}", 0),
    ("snort", "{month:02}/{day:02}-{clock}.{us}  [**] [1:{n}:1] {text} [**] {{TCP}} {ip}:{n} -> {ip}:80", 0),
    ("suricata fast", "{month:02}/{day:02}/{year:04}-{clock}.{us}  [**] [1:{n}:1] {text} [**] {{TCP}} {ip}:{n} -> {ip}:80", 0),
    ("suricata eve", '{{"timestamp":"{year:04}-{month:02}-{day:02}T{clock}.{us}{z}","flow_id":{n},"event_type":"dns","src_ip":"{ip}"}}', 0),
    ("auditd", 'type=SYSCALL msg=audit({unix}.{ms}:{n}): arch=c000003e syscall=59 success=yes comm="{word}"', 0),
    ("nagios", "[{unix}] SERVICE ALERT: host;{word};WARNING;SOFT;1;{text}", 0),
    ("unbound", "[{unix}] unbound[{n}:0] info: {ip} example.org. A IN", 0),
    ("bind", "{day:02}-{mon}-{year:04} {clock}.{ms} client {ip}#{n}: query: example.org IN A", 60),
    ("dnsmasq", "{mon} {day:2} {clock} dnsmasq[{n}]: query[A] example.org from {ip}", 60),
    ("samba", "[{year:04}/{month:02}/{day:02} {clock}.{us},  0] ../source3/smbd/{word}.c:{n}({word})", 60),
    ("vsftpd", '{wd} {mon} {day:2} {clock} {year:04} [pid {n}] CONNECT: Client "{ip}"', 60),
    ("dmesg -T", "[{wd} {mon} {day:2} {clock} {year:04}] usb 1-{n}: {text}", 60),
    ("dpkg", "{year:04}-{month:02}-{day:02} {clock} status installed {word}:amd64 1.2.{n}-1", 60),
    ("apt", "Start-Date: {year:04}-{month:02}-{day:02}  {clock}", 60),
    ("pacman", "[{year:04}-{month:02}-{day:02}T{clock}{z}] [ALPM] upgraded {word} (1.{n}-1 -> 1.{n}-2)", 60),
    ("wget", "--{year:04}-{month:02}-{day:02} {clock}--  https://example.org{path}", 60),
    ("curl cookies", "date: {wd}, {day:02} {mon} {year:04} {clock} GMT", 0),
    ("mail", "Date: {wd}, {day} {mon} {year:04} {clock} {z}", -300),
    ("git log", "Date:   {wd} {mon} {day} {clock} {year:04} {z}", 120),
    ("git log iso", "{n} {year:04}-{month:02}-{day:02} {clock} {z} {text}", 120),
    ("openssl", "notBefore={mon} {day:2} {clock} {year:04} GMT", 0),
    ("date", "backup of {word} done: {wd} {mon} {day:2} {clock} UTC {year:04}", 0),
    ("date zone", "backup of {word} done: {wd} {mon} {day:2} {clock} CEST {year:04}", 120),
    ("tweets", '{{"id":{n},"created_at":"{wd} {mon} {day:02} {clock} +0000 {year:04}","text":"{text}"}}', 0),
    ("erlang", "=INFO REPORT==== {day}-{mon}-{year:04}::{clock} === {text}", 60),
    ("rabbitmq", "{year:04}-{month:02}-{day:02} {clock}.{us}{zc} [info] <0.{n}.0> {text}", 60),
    ("macos system", "{mon} {day:2} {clock} mac {word}[{n}]: {text}", -420),
    ("macos install", "{year:04}-{month:02}-{day:02} {clock}+02 mac installd[{n}]: {text}", 120),
    ("android", "{month:02}-{day:02} {clock}.{ms} {n:5} {n:5} I {word}: {text}", 0),
    ("windows US", "Information,{month}/{day}/{year:04} {hour12}:{minute:02}:{second:02} {half},Service Control Manager,{n},None", -480),
    ("windows German", "Informationen;{day:02}.{month:02}.{year:04} {clock};Service Control Manager;{n};Keine", 60),
    ("windows British", "Information,{day:02}/{month:02}/{year:04} {clock},Service Control Manager,{n},None", 0),
    ("oracle", "{day:02}-{MON}-{year:04} {clock} * (CONNECT_DATA=(SID={word})) * {n}", 60),
    ("serilog", "{year:04}-{month:02}-{day:02} {clock}.{ms} {zc} [INF] {text}", 120),
    ("sql server", "{year:04}-{month:02}-{day:02} {clock}.{ms} spid{n}s     {text}", 60),
    ("veeam", "[{day:02}.{month:02}.{year:04} {clock}.{ms}] <{n}> Info     {text}", 60),
    ("dhcp of Windows", "{n},{month:02}/{day:02}/{yy:02},{clock},Assign,{ip},{word},0011223344{n},", 0),
    ("ledger", "{year:04}/{month:02}/{day:02} {text}", 0),
    ("csv of bank", "{day:02}.{month:02}.{year:04};{word};{n},50;EUR", 0),
    ("cron of iso8601", "{year:04}{month:02}{day:02}T{hour:02}{minute:02}{second:02}Z {text}", 0),
    ("otel", '{{"resourceLogs":"{word}","timeUnixNano":"{unix}{ns}","body":"{text}"}}', 0),
    ("strace", "{unix}.{us} openat(AT_FDCWD, \"{path}\", O_RDONLY) = {n}", 0),
    ("tcpdump -tttt", "{year:04}-{month:02}-{day:02} {clock}.{us} IP {ip}.{n} > {ip}.443: Flags [P.], length {n}", 60),
    ("valgrind of glog", "I{year:04}{month:02}{day:02} {clock}.{us} {n:5} {word}.cc:{n}] {text}", 0),
]


class Line(NamedTuple):
    """A line, and the moment that its program meant, in UTC."""

    text: str
    moment: datetime.datetime
    nanosecond: int


class Log(NamedTuple):
    """A log, with what its lines may not say: the offset at which it is written, and the year of its first line."""

    name: str
    lines: list[Line]
    offset: str
    year: int


def message(rng: random.Random) -> dict[str, object]:
    """Returns the parts of a message."""
    words = [rng.choice(WORDS) for _ in range(rng.randint(2, 6))]
    return {
        "n": rng.randint(2, 9999), "ip": f"192.0.2.{rng.randint(1, 254)}", "ip6": rng.choice(["::1", "2001:db8::10:20:30", "fe80::1:2:3"]),
        "word": rng.choice(WORDS), "text": " ".join(words), "path": rng.choice(PATHS),
    }  # fmt: skip


def written(rng: random.Random, pattern: str, m: Moment) -> str:
    """Returns the line of a moment: the parts of a message are put in first, each by itself."""
    line = pattern
    for part in ("n", "ip6", "ip", "word", "text", "path"):
        while "{" + part + "}" in line:
            line = line.replace("{" + part + "}", str(message(rng)[part]), 1)
    for width in ("5", "6", "7"):
        while "{n:" + width + "}" in line:
            line = line.replace("{n:" + width + "}", f"{rng.randint(2, 9999):{width}}", 1)
    line = line.replace("{MON}", m.date().strftime("%b").upper())
    return of(line)(rng, m)


def log_of(rng: random.Random, kind: tuple[str, str, int], count: int) -> Log:
    """Returns a log of so many lines, some seconds apart, beginning on some day; lines whose date says no time are a day apart."""
    name, pattern, offset = kind
    has_time = any(it in pattern for it in ("clock", "hour", "unix"))
    at = datetime.datetime(rng.randint(2021, 2025), rng.randint(1, 12), rng.randint(1, 28), rng.randint(0, 23) * has_time, rng.randint(0, 59) * has_time)
    digits = next((count for part, count in (("{ns}", 9), ("{us}", 6), ("{ms}", 3)) if part in pattern), 0)
    lines = []
    for _ in range(count):
        at += datetime.timedelta(seconds=rng.randint(0, 900)) if has_time else datetime.timedelta(days=rng.randint(0, 3))
        nanosecond = rng.randrange(10**digits) * 10 ** (9 - digits) if digits else 0
        second = at.second if "second" in pattern or "clock" in pattern or "unix" in pattern else 0
        at = at.replace(second=second)
        shown = Moment(at.year, at.month, at.day, at.hour, at.minute, at.second, nanosecond, offset)
        moment = at - datetime.timedelta(minutes=0 if "{unix}" in pattern else offset)
        lines.append(Line(written(rng, pattern, shown), moment, nanosecond))
    sign = "-" if offset < 0 else "+"
    return Log(name, lines, f"{sign}{abs(offset) // 60:02}:{abs(offset) % 60:02}", lines[0].moment.year)
