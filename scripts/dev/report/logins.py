"""Two logins, both of this machine, and the pages that are made over them."""
import os
import shutil
import signal
import subprocess
import tempfile
import time

from basics import REPORT, ask, measured, say, table_of, wants


# (the usual exchange of keys takes seconds on a busy machine)
SETTINGS = """Port {port}
ListenAddress 127.0.0.1
HostKey {home}/host
AuthorizedKeysFile {home}/keys
StrictModes no
UsePAM no
PidFile {home}/pid
SetEnv PATH={home}:{path} REPLAY={replay}
MaxStartups 100
MaxSessions 100
KexAlgorithms curve25519-sha256
Subsystem sftp internal-sftp
"""


class Logins:
    """Two logins of this machine, by an ssh server of its own."""

    NEEDED = ("sshd", "ssh", "ssh-keygen", "rsync", "parallel")

    def __init__(self, work, programs):
        """The programs are those that both logins have on the PATH, by their names."""
        self.home = home = work / "login"
        home.mkdir(mode=0o700)
        for name, path in programs.items():
            (home / name).symlink_to(path)
        for key in ("host", "user"):
            ask("ssh-keygen", "-q", "-t", "ed25519", "-N", "", "-f", home / key)
        shutil.copy(home / "user.pub", home / "keys")
        (home / "keys").chmod(0o600)
        port = 20000 + os.getpid() % 20000
        (home / "sshd").write_text(SETTINGS.format(
            port=port, home=home, path=os.environ["PATH"], replay=os.environ["REPLAY"]))
        os.makedirs("/run/sshd", exist_ok=True)
        login = (f"ssh -p {port} -i {home}/user -o StrictHostKeyChecking=no "
                 f"-o UserKnownHostsFile={home}/known -o ControlPath={home}/%h-%p")
        self.logins = [[*login.split(" "), host] for host in ("127.0.0.1", "localhost")]
        self.machines = home / "machines"
        self.machines.write_text("".join(f"2/{' '.join(it)}\n" for it in self.logins))
        self.with_one_down = home / "machines-one-down"
        closed = login.replace(f"-p {port}", "-p 1")
        self.with_one_down.write_text(f"2/{closed} 127.0.0.1\n2/{login} localhost\n")
        self.with_this_machine = home / "machines-and-this"
        self.with_this_machine.write_text(f"1/:\n1/{login} localhost\n")
        self.server = subprocess.Popen([shutil.which("sshd"), "-D", "-f", home / "sshd"],
                                       stderr=subprocess.DEVNULL)

    def answer(self):
        """Whether each login runs a program within ten seconds; says which does not."""
        silent = [(login[-1], fault) for login in self.logins if (fault := fault_of(login))]
        for host, fault in silent:
            wants(False, f"the login {host} of this machine does not answer, so nothing is tried "
                         f"over it: {fault}")
        return not silent

    def close(self):
        for login in self.logins:
            ask(*login[:1], "-O", "exit", *login[1:])
        self.server.terminate()
        self.server.wait()

    def hosts_in(self, joblog):
        """The hosts on which the jobs of a joblog ran."""
        return {line.split("\t")[1].split()[-1] for line in joblog.read_text().splitlines()[1:]}


def fault_of(login):
    """What is wrong with a login, which may still be on its way up; nothing if it answers.

    Its connection stays, and takes all that is asked of the login later: on a busy machine a new
    one takes seconds, and GNU parallel leaves out a login that does not answer within ten.
    """
    stays = ("BatchMode=yes", "ConnectionAttempts=10", "ControlMaster=yes", "ControlPersist=yes")
    options = [it for option in stays for it in ("-o", option)]
    with tempfile.TemporaryFile() as told:
        try:
            ran = subprocess.run([login[0], *options, *login[1:], "true"], timeout=10, check=False,
                                 stdin=subprocess.DEVNULL, stdout=subprocess.DEVNULL, stderr=told)
        except subprocess.TimeoutExpired:
            return "no answer in 10 s"
        told.seek(0)
        return "" if ran.returncode == 0 else told.read().decode() or f"status {ran.returncode}"


def stop_midway(words, folder, count):
    """Begins to make the pages, and stops when a third is there."""
    first = subprocess.Popen([*words, folder], stdout=subprocess.DEVNULL, stderr=subprocess.DEVNULL,
                             start_new_session=True)
    end = time.monotonic() + 900
    while len(list(folder.rglob("*.log.html"))) < count // 3 and first.poll() is None:
        if time.monotonic() > end:
            break
        time.sleep(0.05)
    os.killpg(first.pid, signal.SIGTERM)
    first.wait()
    time.sleep(1)


def check_machines(page, logins, folder, count):
    """The pages made over two logins; stopped in the middle, and resumed."""
    wanted = (folder / "index.html").read_bytes()
    for made in folder.rglob("*.html"):
        made.unlink()
    joblog = logins.home / "joblog"
    words = ["--machines", logins.machines, "--joblog", joblog]
    with measured() as took:
        stop_midway([REPORT, *words], folder, count)
        before = {made: made.stat().st_mtime_ns for made in folder.rglob("*.log.html")}
        logged = joblog.read_text().count("\n") - 1
        with measured() as rest:
            table_of(page, folder, *words, "--resume")
    kept = sum(made.stat().st_mtime_ns == stamp for made, stamp in before.items())
    hosts = logins.hosts_in(joblog)
    wants(hosts, "machines: GNU parallel left out both logins")
    wants(len(hosts) in (0, 2), f"machines: the jobs ran on {hosts}")
    wants(min(logged, len(before)) - 4 <= kept < count - 1,
          f"machines: {kept} pages were kept, {logged} jobs were done before")
    wants((folder / "index.html").read_bytes() == wanted,
          "over two logins the table is another one")
    say(f"the same table of {count} logs over two logins: stopped after {len(before)} pages, "
        f"of which {kept} were kept; {took.wall:.1f} s in all, {rest.wall:.1f} s for the rest")


def check_one_down(page, logins, work, log):
    """A machine that does not answer is left out, and its part is done by the other."""
    folder = work / "one down"
    folder.mkdir()
    for number in range(6):
        (folder / f"{number}.log").write_bytes(log)
    joblog = logins.home / "joblog-one-down"
    with measured() as took:
        rows = table_of(page, folder, "--machines", logins.with_one_down, "--joblog", joblog,
                        timeout=120)
    wants([row["fault"] for row in rows] == [""] * 6, f"one machine is down: {rows}")
    # (a busy login is taken for one that is down, too; then this machine does its part)
    wants(logins.hosts_in(joblog) <= {"localhost"},
          f"one machine is down: the jobs ran on {logins.hosts_in(joblog)}")
    say(f"one of two machines down: {took}")


def check_this_one(logins, work, log):
    """This machine among the logins, as `:`, does its part; nothing is said, and nothing left."""
    folder = work / "this machine, too"
    folder.mkdir()
    for number in range(12):
        (folder / f"{number}.log").write_bytes(log)
    joblog = logins.home / "joblog-and-this"
    ran = ask(REPORT, "--machines", logins.with_this_machine, "--joblog", joblog, folder)
    names = sorted(it.suffix for it in folder.iterdir())
    wants((ran.returncode, ran.stderr) == (0, b"") and names == [".html"] * 12 + [".log"] * 12,
          f"this machine among the logins: status {ran.returncode}: {ran.stderr.decode()}, {names}")
    hosts = logins.hosts_in(joblog)
    wants(":" in hosts and hosts <= {":", "localhost"}, f"with this machine the jobs ran on {hosts}")
    say(f"this machine among the logins: 12 pages, made by {len(hosts)} machines")
