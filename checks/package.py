#!/usr/bin/env python3
"""Makes the Debian package of the built program, and installs, upgrades, removes and purges it.

    checks/package.py [--program FILE] [--only NAME] [--chroot] [--base FOLDER]

- Anywhere: packaging/install.sh twice into one folder, with an operator's edits between; what the
  package's script calls at an installation and an upgrade; and `systemd-analyze verify` of both
  units, with what they have to say, if systemd is there.
- The record beside a program: its commit, whether the crates differ from that, and what BUILD says.
- With dpkg-deb and binutils: the package, the same octets twice, and lintian without an error, if
  it is there. Its version and description say whether the program is proved, and its commit; an
  unproved one has to be asked for. Records of the script's own stand beside copies of the program.
- With `--chroot`, as root and with debootstrap: the package in a Debian of its own, with one that is
  a version above it and has other settings and another unit, and with one whose settings are
  configuration files, as they were before. What an operator wrote stays through each step, and dpkg
  asks nothing: settings, words, a file of `systemctl edit`, the folder of a second line.

A chroot takes a minute and fetches some 60 MB, so the gate leaves it out. FOLDER is where what
debootstrap made is kept and taken again. If a part can't run here, a line `left out: ..` says so.
"""
import glob
import os
import re
import shlex
import shutil
import subprocess
import sys

import frame

TOP = frame.TOP
sys.path.append(os.path.join(TOP, "tools"))
import kit
SUITE = "bookworm"
# What the first installation copies from usr/share/telegate.
SETTINGS = ("gateway.toml", "site.toml", "telegate.env")
OWN_SETTINGS = "# what an operator wrote\n"
OWN_SITE = 'allow = ["192.0.2.20"]\n'
OWN_WORDS = "TELEGATE_OPTIONS=--site /etc/telegate/site.toml --status 127.0.0.1:8104\n"
# What an operator writes, and what is never to be changed by a step.
OWN = {
    "etc/telegate/gateway.toml": OWN_SETTINGS,
    "etc/telegate/site.toml": OWN_SITE,
    "etc/telegate/telegate.env": OWN_WORDS,
    "etc/telegate/north/gateway.toml": OWN_SETTINGS,
    "etc/systemd/system/telegate.service.d/override.conf": "[Service]\nIPAddressAllow=192.0.2.10 192.0.2.20\n",
}
# What a package has to bring.
BROUGHT = [
    "usr/bin/telegate",
    "usr/lib/systemd/system/telegate.service",
    "usr/lib/systemd/system/telegate@.service",
    "usr/share/man/man1/telegate.1.gz",
    "usr/share/doc/telegate/README.md",
    "usr/share/doc/telegate/copyright",
    "usr/share/bash-completion/completions/telegate",
    "usr/share/zsh/vendor-completions/_telegate",
    "usr/share/fish/vendor_completions.d/telegate.fish",
    *(f"etc/telegate/{name}" for name in SETTINGS),
]


def run(words, **more):
    more = {"stdin": subprocess.DEVNULL, "capture_output": True, "text": True, "timeout": 600, **more}
    return subprocess.run([str(word) for word in words], **more)


def read(path):
    if not os.path.isfile(path):
        return None
    with open(path, encoding="utf-8", errors="replace") as file:
        return file.read()


def write(path, text):
    os.makedirs(os.path.dirname(path), exist_ok=True)
    with open(path, "w", encoding="utf-8") as file:
        file.write(text)


def said(ran):
    return (ran.stdout + ran.stderr).strip()[-600:]


def write_own(root):
    for name, text in OWN.items():
        write(os.path.join(root, name), text)


def judge_own(count, root, step, names=None):
    """What the operator wrote is as it was."""
    for name in names or OWN:
        count.case(read(os.path.join(root, name)) == OWN[name], f"{step}: {name} isn't what the operator wrote: {read(os.path.join(root, name))!r}")


def judge_install_script(count, program, folder):
    """install.sh into a folder, twice: the second call is an upgrade, and leaves what stands in etc."""
    root = os.path.join(folder, "root")
    script, environment = os.path.join(TOP, "packaging/install.sh"), {**os.environ, "DESTDIR": root, "TELEGATE_PROGRAM": program}
    first = run([script], env=environment)
    count.case(first.returncode == 0, f"install.sh: {said(first)}")
    count.case(read(os.path.join(root, "etc/telegate/gateway.toml")) == read(os.path.join(TOP, "examples/full.toml")), "install.sh: no settings to begin with")
    tried = run([program, "run", "--site", os.path.join(root, "etc/telegate/site.toml"), "nowhere"])
    count.case(said(tried) == frame.unread("nowhere").strip(), f"install.sh: the site's file to begin with: {said(tried)}")
    count.case("--site /etc/telegate/site.toml" in (read(os.path.join(root, "etc/telegate/telegate.env")) or ""), "install.sh: the words don't name the site's file")
    write_own(root)
    unit = os.path.join(root, "usr/local/lib/systemd/system/telegate.service")
    fresh = read(unit)
    write(unit, "an older unit\n")
    second = run([script], env=environment)
    count.case(second.returncode == 0, f"install.sh, again: {said(second)}")
    count.case("systemctl try-reload-or-restart telegate" in second.stdout, f"install.sh, again: how a line takes the new program: {said(second)}")
    count.case(fresh and read(unit) == fresh, "install.sh, again: the unit isn't the new one")
    judge_own(count, root, "install.sh, again")
    removed = run([script, "--remove"], env=environment)
    count.case(removed.returncode == 0, f"install.sh --remove: {said(removed)}")
    judge_own(count, root, "install.sh --remove")
    left = [path for path in glob.glob(os.path.join(root, "usr/**"), recursive=True) if os.path.isfile(path)]
    count.case(not left, f"install.sh --remove: it leaves {left[:3]}")


def judge_units(count, program, folder):
    """systemd finds nothing wrong with the units, as they are installed beside the program."""
    if not shutil.which("systemd-analyze"):
        print("left out: systemd-analyze isn't there")
        return
    root = os.path.join(folder, "verified")
    run([os.path.join(TOP, "packaging/install.sh")], env={**os.environ, "DESTDIR": root, "TELEGATE_PROGRAM": program})
    units = os.path.join(root, "usr/local/lib/systemd/system")
    for name, instance in (("telegate.service", "telegate.service"), ("telegate@.service", "telegate@north.service")):
        text = (read(os.path.join(units, name)) or "").replace("/usr/local/bin/telegate", program)
        write(os.path.join(folder, "units", name), text)
        verified = run(["systemd-analyze", "verify", "--man=no", os.path.join(folder, "units", instance)])
        count.case(verified.returncode == 0 and not said(verified), f"systemd-analyze verify {instance}: {said(verified)}")
        # What a start and a check write bears one name, a signal ends nothing for good, and a reload judges before it restarts.
        own = "telegate" if name == instance else "telegate-%i"
        for wanted in (f"SyslogIdentifier={own}", f"StateDirectory={own}", "Restart=always", "RestartPreventExitStatus=1 2", "ExecStartPost=/bin/sleep 1"):
            count.case(f"\n{wanted}\n" in text, f"{name} has no {wanted}")
        reloads = re.findall(r"^ExecReload=(.*)$", text, re.M)
        count.case(len(reloads) == 2 and " check --live " in reloads[0] and "systemctl restart %n" in reloads[1], f"{name}: {reloads}")
    line = read(os.path.join(folder, "units/telegate@.service"))
    count.case(re.search(r"^User=telegate-%i$", line, re.M), "telegate@.service has no user of its own")
    count.case("/etc/telegate/%i/" in line and not re.search(r"/etc/telegate/(?!%i/)", line), "telegate@.service reads settings that aren't its line's")


def judge_starts(count, program, folder):
    """What a unit calls before a start and a reload judges both files: that of the site is the one that the words name, if they name one."""
    root = os.path.join(folder, "started")
    run([os.path.join(TOP, "packaging/install.sh")], env={**os.environ, "DESTDIR": root, "TELEGATE_PROGRAM": program})
    site = ("line 1, column 7: 1\nwanted: true or false\n", "site: log\n")
    settings = ("no value: it belongs below line 1\nwanted: 1 to 2\n", "config: line.link\n")
    for name, place in (("telegate.service", "etc/telegate"), ("telegate@.service", "etc/telegate/north")):
        unit = read(os.path.join(root, "usr/local/lib/systemd/system", name))
        write(os.path.join(root, place, "gateway.toml"), "[line]\n")
        write(os.path.join(root, place, "site.toml"), "log = 1\n")
        named = ["--site", os.path.join(root, place, "site.toml")]
        tried = (([], settings), (named, site), (["--allow", "192.0.2.7", *named, "--redial"], site), (["--redial"], settings))
        for key in ("ExecStartPre=-", "ExecReload="):
            before = re.search(rf"^{key}(/bin/sh .*)$", unit, re.M)[1].replace("$$", "$").replace("%i", "north")
            before = before.replace("/usr/local/bin/telegate", program).replace("/etc/", f"{root}/etc/")
            for words, want in tried:
                ran = run([part for word in shlex.split(before) for part in (words if word == "$TELEGATE_OPTIONS" else [word])])
                count.case((ran.stdout, frame.bare(ran.stderr), ran.returncode) == (*want, 1), f"{name}, {key} with {words}: {ran.stdout!r} {ran.stderr!r}")


POSTED = """#!/bin/sh
echo "$(basename "$0") $*" >>{folder}/called
[ "$1" != try-reload-or-restart ] || exit {status}
"""
UPGRADED = "deb-systemd-invoke try-reload-or-restart telegate.service telegate@*.service"


def judge_postinst(count, program, folder):
    """What the package's script calls. A first installation starts nothing. An upgrade has each line that runs judge its files before a
    restart; if they are wrong it says so, and the upgrade goes on."""
    folder = os.path.join(folder, "posted")
    for place in ("bin", "system", "etc", "share"):
        os.makedirs(os.path.join(folder, place))
    script = read(os.path.join(TOP, "packaging/debian/postinst"))
    for there, here in (("/run/systemd/system", "system"), ("/etc/telegate", "etc"), ("/usr/share/telegate", "share")):
        script = script.replace(there, os.path.join(folder, here))
    write(os.path.join(folder, "postinst"), script)
    for name in SETTINGS:
        write(os.path.join(folder, "share", name), "# to begin with\n")
    environment = {"PATH": f"{folder}/bin:{os.environ['PATH']}"}
    for version, status in (("", 0), ("0.9.0", 0), ("0.9.0", 1)):
        write(os.path.join(folder, "called"), "")
        for name in ("systemctl", "deb-systemd-invoke"):
            write(os.path.join(folder, "bin", name), POSTED.format(folder=folder, status=status))
            os.chmod(os.path.join(folder, "bin", name), 0o755)
        ran = run(["sh", os.path.join(folder, "postinst"), "configure", version], env=environment)
        wanted = ["systemctl --system daemon-reload", *([UPGRADED] if version else [])]
        name = f"postinst, {f'upgrade from {version}' if version else 'first installation'}, {'wrong' if status else 'right'} settings"
        count.compare(f"{name}: calls", read(os.path.join(folder, "called")).splitlines(), wanted)
        count.compare(f"{name}: status", ran.returncode, 0)
        count.judge(f"{name}: it says so", ("runs on with the old program" in ran.stderr) == (status == 1), ran.stderr)
        if not version:
            count.compare(f"{name}: files to begin with", sorted(os.listdir(os.path.join(folder, "etc"))), sorted(SETTINGS))


def make_package(program, into, words=("--unproved",), **more):
    """The package of a program, which needn't be proved, and what was said."""
    os.makedirs(into, exist_ok=True)
    made = run([os.path.join(TOP, "packaging/deb"), *words, into], env={**os.environ, "TELEGATE_PROGRAM": program, **more})
    found = glob.glob(os.path.join(into, "*.deb"))
    return (found[0] if found and made.returncode == 0 else None), said(made)


# What stands beside a program, the words of packaging/deb, and what its package says: what follows the
# program's own version, and the line of BUILD. The moment is 2026-02-03 04:05:06 UTC.
MOMENT = "moment 1770091506"
PROVED, UNPROVED = "proved by a-kit, commit 0123abc", "unproved, commit 0123abc"
ORIGINS = {
    "proved": ((PROVED, MOMENT), (), "+git20260203040506.0123abc"),
    "proved, a second later": ((PROVED, "moment 1770091507"), (), "+git20260203040507.0123abc"),
    "proved, an hour later": ((PROVED.replace("0123abc", "00ff"), "moment 1770095106"), (), "+git20260203050506.00ff"),
    "proved, with changes": ((f"{PROVED} with changes", MOMENT), (), "+git20260203040506.0123abc.changes"),
    "proved, no commit": (("proved by a-kit",), (), ""),
    "proved, with a word too many": ((PROVED, MOMENT), ("--unproved",), "+git20260203040506.0123abc"),
    "unproved": ((UNPROVED, MOMENT), ("--unproved",), "~unproved+git20260203040506.0123abc"),
    "unproved, with changes": ((f"{UNPROVED} with changes", MOMENT), ("--unproved",), "~unproved+git20260203040506.0123abc.changes"),
    "unproved, an hour later": ((UNPROVED, "moment 1770095106"), ("--unproved",), "~unproved+git20260203050506.0123abc"),
    "unknown": ((), ("--unproved",), "~unproved"),
}
# Whatever stands beside these, nothing says that they are proved.
REFUSED = {"unproved": (UNPROVED, MOMENT), "unknown": ()}
# The order in which dpkg is to sort them: what is behind is an upgrade.
ORDER = ["unknown", "unproved", "unproved, with changes", "unproved, an hour later", "proved, no commit", "proved", "proved, with changes", "proved, a second later", "proved, an hour later"]


def placed(program, folder, record):
    """A copy of the program with this record beside it."""
    os.makedirs(folder)
    copy = shutil.copy2(program, os.path.join(folder, "telegate"))
    if record:
        frame.note_origin(copy, *record)
    return copy


def field_of(package, name):
    return run(["dpkg-deb", "-f", package, name]).stdout.strip()


def judge_origin(count, name, package, version, build):
    """Each place at which a package says whether its program is proved, and of which commit it is."""
    image = f"{package}-image"
    run(["dpkg-deb", "-R", package, image])
    is_proved, told = build.startswith("proved"), field_of(package, "Description")
    count.compare(f"{name}: version", field_of(package, "Version"), version)
    count.compare(f"{name}: file", os.path.basename(package), f"telegate_{version}_amd64.deb")
    count.compare(f"{name}: BUILD", read(os.path.join(image, "usr/share/doc/telegate/BUILD")), f"{build}\n")
    count.judge(f"{name}: description", told.endswith(f" This program: {build}."), told)
    count.judge(f"{name}: what it claims", (is_proved, not is_proved) == ("theorems" in told, "isn't proved" in told), told)
    count.judge(f"{name}: lines of the description", max(map(len, told.splitlines())) <= 80, told)
    for unit in ("telegate.service", "telegate@.service"):
        text = read(os.path.join(image, "usr/lib/systemd/system", unit))
        count.judge(f"{name}: {unit}", "\nDocumentation=man:telegate(1) file:/usr/share/doc/telegate/BUILD\n" in text, text)


def judge_origins(count, program, folder):
    """What a package says of its program, and that one which isn't proved is asked for."""
    own, versions = run([program, "--version"]).stdout.split()[1], {}
    for name, (record, words, behind) in ORIGINS.items():
        copy = placed(program, os.path.join(folder, name, "program"), record)
        package, told = make_package(copy, os.path.join(folder, name, "made"), words)
        count.judge(f"{name}: the package", package, told)
        if package:
            versions[name] = f"{own}{behind}"
            judge_origin(count, name, package, versions[name], (record or ("unproved",))[0])
    for name, record in REFUSED.items():
        copy = placed(program, os.path.join(folder, name, "refused"), record)
        package, told = make_package(copy, os.path.join(folder, name, "nothing"), ())
        wanted = (None, f"deb: nothing says that {copy} is proved: run ./build first, or say --unproved")
        count.compare(f"{name}, without the word", (package, told), wanted)
    # A record is of one program. What was compiled since isn't proved.
    copy = placed(program, os.path.join(folder, "another"), (PROVED, MOMENT))
    with open(copy, "ab") as file:
        file.write(b"\0")
    count.compare("the record of another program", run([os.path.join(TOP, "tools/origin"), copy]).stdout, "unproved\n")
    for before, behind in zip(ORDER, ORDER[1:]):
        sorts = run(["dpkg", "--compare-versions", versions[before], "lt", versions[behind]])
        count.judge(f"{before} sorts before {behind}", sorts.returncode == 0, versions)


class Repository:
    """A repository of one crate, for rows about its commit."""

    def __init__(self, folder):
        self.folder = folder
        self.git("init", "--quiet")
        self.write("crates/a/src/lib.rt", "crates.txt", "docs/A.md")
        write(os.path.join(folder, ".gitignore"), "out/\n")
        self.commit()

    def git(self, *words):
        os.makedirs(self.folder, exist_ok=True)
        own = ["-c", "user.name=a", "-c", "user.email=a@example.org"]
        return run(["git", "-C", self.folder, *own, *words]).stdout.strip()

    def write(self, *names, text="a\n"):
        for name in names:
            write(os.path.join(self.folder, name), text)

    def commit(self):
        self.git("add", "--all")
        self.git("commit", "--quiet", "--message", "a")

    def name(self):
        return self.git("log", "-1", "--format=%h")


SOURCE = "crates/a/src/lib.rt"
# What is done in a repository before a program is compiled of it and meanwhile, and what is told of its commit.
COMPILED = {
    "nothing": (lambda it: None, lambda it: None, ""),
    "a document": (lambda it: it.write("docs/A.md", text="b\n"), lambda it: None, ""),
    "what a proof leaves": (lambda it: it.write("crates/a/out/b"), lambda it: None, ""),
    "a source": (lambda it: it.write(SOURCE, text="b\n"), lambda it: None, " with changes"),
    "a source, for the next commit": (lambda it: (it.write(SOURCE, text="b\n"), it.git("add", "--all")), lambda it: None, " with changes"),
    "a new source": (lambda it: it.write("crates/a/src/new.rt"), lambda it: None, " with changes"),
    "the list of crates": (lambda it: it.write("crates.txt", text="b\n"), lambda it: None, " with changes"),
    "a source, taken back meanwhile": (lambda it: it.write(SOURCE, text="b\n"), lambda it: it.write(SOURCE), " with changes"),
    "a source, meanwhile": (lambda it: None, lambda it: it.write(SOURCE, text="b\n"), " with changes"),
    "a commit of a source, meanwhile": (lambda it: None, lambda it: (it.write(SOURCE, text="b\n"), it.commit()), " with changes"),
    "a commit of a document, meanwhile": (lambda it: None, lambda it: (it.write("docs/A.md", text="b\n"), it.commit()), ""),
}


def records(count, program, folder):
    """What is noted of a program that is compiled: the commit at the beginning, and whether its crates are of other text."""
    if not shutil.which("git"):
        raise frame.Skipped("no git")
    top, kit.TOP = kit.TOP, os.path.join(folder, "none")
    try:
        copy = placed(program, os.path.join(folder, "program"), ())
        kit.note(copy, kit.Commit(), is_proved=False)
        count.compare("no repository", read(f"{copy}.unproved").splitlines()[0], "unproved")
        for name, (before, meanwhile, told) in COMPILED.items():
            repository = Repository(os.path.join(folder, name))
            kit.TOP, commit = repository.folder, repository.name()
            moment = repository.git("log", "-1", "--format=%ct")
            before(repository)
            begun = kit.Commit()
            meanwhile(repository)
            kit.note(copy, begun, is_proved=False)
            noted = run([os.path.join(TOP, "tools/origin"), copy]).stdout.splitlines()[:2]
            count.compare(f"changed: {name}", noted, [f"unproved, commit {commit}{told}", f"moment {moment}"])
        if shutil.which("rt"):
            kit.note(copy, kit.Commit(), is_proved=True)
            name = run(["rt", "version"]).stdout.split()[0]
            count.compare("a proved program", read(f"{copy}.proved").splitlines()[0], f"proved by {name}, commit {repository.name()}")
    finally:
        kit.TOP = top


def installed_origins(count, program, folder):
    """What install.sh says of the program, and where: in BUILD, which both units name."""
    for name, record in {"proved": (PROVED, MOMENT), "unproved": (UNPROVED, MOMENT), "unknown": ()}.items():
        copy, root = placed(program, os.path.join(folder, name), record), os.path.join(folder, name, "root")
        for step in ("first", "again"):
            ran = run([os.path.join(TOP, "packaging/install.sh")], env={**os.environ, "DESTDIR": root, "TELEGATE_PROGRAM": copy})
            told = (record or ("unproved",))[0]
            count.compare(f"install.sh, {name}, {step}", ran.stdout.splitlines()[:1], [f"installed: /usr/local/bin/telegate ({told})"])
            count.compare(f"BUILD, {name}, {step}", read(os.path.join(root, "usr/local/share/doc/telegate/BUILD")), f"{told}\n")
        for unit in ("telegate.service", "telegate@.service"):
            text = read(os.path.join(root, "usr/local/lib/systemd/system", unit))
            count.judge(f"{unit}, {name}", "\nDocumentation=man:telegate(1) file:/usr/local/share/doc/telegate/BUILD\n" in text, text)


def judge_releases(count, program, folder):
    """The commit with the version's tag is the release, if the program is proved and of no other text."""
    if not shutil.which("git"):
        raise frame.Skipped("no git")
    own, repository = run([program, "--version"]).stdout.split()[1], Repository(os.path.join(folder, "repository"))
    repository.git("tag", f"v{own}")
    behind = f"+git20260203040506.{repository.name()}"
    rows = (("proved by a-kit", "", ""), ("proved by a-kit", " with changes", f"{behind}.changes"), ("unproved", "", f"~unproved{behind}"))
    for number, (begins, ends, wanted) in enumerate(rows):
        told = f"{begins}, commit {repository.name()}{ends}"
        copy = placed(program, os.path.join(folder, str(number)), (told, MOMENT))
        package, _ = make_package(copy, os.path.join(folder, f"{number}-made"), GIT_DIR=f"{repository.folder}/.git")
        count.compare(f"a release, {told}", package and field_of(package, "Version"), f"{own}{wanted}")


def judge_checkout(count, program, folder):
    """Of the program that ./build made a package is made if the commit that is checked out is the program's."""
    if not shutil.which("git"):
        raise frame.Skipped("no git")
    repository, into = Repository(os.path.join(folder, "repository")), os.path.join(folder, "made")
    os.makedirs(into)
    for name in ("docs", "examples", "packaging"):
        shutil.copytree(os.path.join(TOP, name), os.path.join(repository.folder, name), dirs_exist_ok=True)
    for path in [os.path.join(TOP, "tools/origin"), *glob.glob(os.path.join(TOP, "*.md")), *glob.glob(os.path.join(TOP, "LICENSE-*"))]:
        copy = os.path.join(repository.folder, os.path.relpath(path, TOP))
        os.makedirs(os.path.dirname(copy), exist_ok=True)
        shutil.copy2(path, copy)
    before = repository.name()
    repository.commit()
    call = [os.path.join(repository.folder, "packaging/deb"), into]
    environment = {name: value for name, value in os.environ.items() if name != "TELEGATE_PROGRAM"}
    ran = run(call, env=environment)
    count.compare("nothing built", (ran.returncode, said(ran)), (1, "deb: no program: run ./build first"))
    built = placed(program, os.path.join(repository.folder, "crates/telegate/out"), (f"proved by a-kit, commit {before}", MOMENT))
    ran = run(call, env=environment)
    told = f"deb: {built} isn't of the commit that is checked out: run ./build first"
    count.compare("built of an earlier commit", (ran.returncode, said(ran), os.listdir(into)), (1, told, []))
    frame.note_origin(built, f"proved by a-kit, commit {repository.name()}", MOMENT)
    ran = run(call, env=environment)
    own = run([program, "--version"]).stdout.split()[1]
    made = [f"telegate_{own}+git20260203040506.{repository.name()}_amd64.deb"]
    count.compare("built of this commit", (ran.returncode, os.listdir(into)), (0, made))


def judge_package(count, program, folder):
    """The package itself; answers its file."""
    package, told = make_package(program, os.path.join(folder, "first"))
    count.case(package, f"packaging/deb: {told}")
    if not package:
        return None
    again, _ = make_package(program, os.path.join(folder, "second"))
    with open(package, "rb") as one, open(again, "rb") as other:
        count.case(one.read() == other.read(), "packaging/deb: two calls make two packages")
    # Without a configuration file dpkg asks nothing at an upgrade, so an unattended one doesn't fail by it.
    image = os.path.join(folder, "image")
    run(["dpkg-deb", "-R", package, image])
    asked = [name for name in ("DEBIAN/conffiles", "etc") if os.path.exists(os.path.join(image, name))]
    count.case(os.path.isdir(os.path.join(image, "usr")) and not asked, f"packaging/deb: dpkg would ask about {asked}")
    if shutil.which("lintian"):
        words = ["lintian", "--fail-on", "error", *(["--allow-root"] if os.geteuid() == 0 else []), package]
        looked = run(words)
        count.case(looked.returncode == 0, f"lintian: {said(looked)}")
    else:
        print("left out: lintian isn't there")
    return package


def changed_package(package, folder, name, version, change):
    """A package of another version, whose files are changed."""
    image, made = os.path.join(folder, f"{name}-image"), os.path.join(folder, f"{name}.deb")
    run(["dpkg-deb", "-R", package, image])
    control = os.path.join(image, "DEBIAN/control")
    write(control, re.sub(r"^Version: (.*)$", rf"Version: \g<1>{version}", read(control), flags=re.M))
    change(image)
    os.remove(os.path.join(image, "DEBIAN/md5sums"))
    run(["dpkg-deb", "--root-owner-group", "--build", image, made])
    return made


def next_package(package, folder):
    """A version above it, which ships other settings and another unit."""

    def change(image):
        for name in ("usr/share/telegate/gateway.toml", "usr/lib/systemd/system/telegate.service"):
            write(os.path.join(image, name), read(os.path.join(image, name)) + "# of the next version\n")

    return changed_package(package, folder, "next", "+1", change)


def earlier_package(package, folder):
    """A version below it, whose settings are configuration files."""

    def change(image):
        for name in SETTINGS:
            write(os.path.join(image, "etc/telegate", name), read(os.path.join(image, "usr/share/telegate", name)) + "# of the version before\n")
        write(os.path.join(image, "DEBIAN/conffiles"), "".join(f"/etc/telegate/{name}\n" for name in SETTINGS))

    return changed_package(package, folder, "earlier", "~1", change)


class Chroot:
    """A Debian of its own, in which packages are installed."""

    def __init__(self, base, folder):
        self.root = os.path.join(folder, "chroot")
        run(["cp", "-a", "--reflink=auto", base, self.root])

    def dpkg(self, *words):
        return run(["chroot", self.root, "env", "-i", "PATH=/usr/sbin:/usr/bin:/sbin:/bin", "DEBIAN_FRONTEND=noninteractive", "dpkg", *words])

    def install(self, package, *words):
        shutil.copy(package, os.path.join(self.root, "tmp/telegate.deb"))
        return self.dpkg(*words, "-i", "/tmp/telegate.deb")

    def path(self, name):
        return os.path.join(self.root, name)

    def files(self):
        """All that stands in it, but for dpkg's own books and caches."""
        found = set()
        for folder, folders, names in os.walk(self.root):
            folders[:] = [name for name in folders if os.path.join(folder, name) not in (self.path("var/lib/dpkg"), self.path("var/log"), self.path("tmp"), self.path("proc"), self.path("sys"), self.path("dev"))]
            found |= {os.path.relpath(os.path.join(folder, name), self.root) for name in [*folders, *names]}
        return found


def judge_first_installation(count, chroot, package):
    installed = chroot.install(package)
    count.case(installed.returncode == 0, f"install: {said(installed)}")
    for name in BROUGHT:
        count.case(os.path.exists(chroot.path(name)), f"install: no {name}")
    ran = run(["chroot", chroot.root, "/usr/bin/telegate", "--version"])
    count.case(ran.returncode == 0 and ran.stdout.startswith("telegate "), f"install: telegate --version: {said(ran)}")
    checked = run(["chroot", chroot.root, "/usr/bin/telegate", "check", "/etc/telegate/gateway.toml"])
    count.case(checked.stdout == "ok\n", f"install: the settings to begin with: {said(checked)}")
    count.case("Conffiles" not in chroot.dpkg("-s", "telegate").stdout, "install: dpkg would ask about settings")
    wanted = glob.glob(chroot.path("etc/systemd/system/*.wants/telegate*"))
    count.case(not wanted, f"install: it enables the service: {wanted}")


def judge_upgrades(count, chroot, packages):
    """Up and down again, with settings that the operator and the package have changed. dpkg asks nothing."""
    for step, package in packages.items():
        installed = chroot.install(package)
        count.case(installed.returncode == 0, f"{step}: {said(installed)}")
        judge_own(count, chroot.root, step)
        strange = set(os.listdir(chroot.path("etc/telegate"))) - {*SETTINGS, "north"}
        count.case(not strange, f"{step}: {strange} beside the operator's files")
        is_next = "next version" in read(chroot.path("usr/lib/systemd/system/telegate.service"))
        count.case(is_next == (step == "upgrade"), f"{step}: the unit isn't that of the package")


def judge_removal(count, chroot, package, before):
    """What was enabled and written by a service goes with a purge, and nothing else of an operator's."""
    wants = chroot.path("etc/systemd/system/multi-user.target.wants")
    os.makedirs(wants, exist_ok=True)
    for name, unit in (("telegate.service", "telegate.service"), ("telegate@north.service", "telegate@.service")):
        os.symlink(f"/usr/lib/systemd/system/{unit}", os.path.join(wants, name))
    for name in ("telegate", "telegate-north"):
        write(chroot.path(f"var/lib/private/{name}/state"), "what a service wrote\n")
        os.symlink(f"private/{name}", chroot.path(f"var/lib/{name}"))
    removed = chroot.dpkg("-r", "telegate")
    count.case(removed.returncode == 0, f"remove: {said(removed)}")
    count.case(not os.path.exists(chroot.path("usr/bin/telegate")), "remove: the program is there")
    judge_own(count, chroot.root, "remove")
    again = chroot.install(package)
    count.case(again.returncode == 0, f"install again: {said(again)}")
    judge_own(count, chroot.root, "install again")
    purged = chroot.dpkg("-P", "telegate")
    count.case(purged.returncode == 0, f"purge: {said(purged)}")
    judge_own(count, chroot.root, "purge", [name for name in OWN if "north" in name or "override" in name])
    own = {name[: place.end()].rstrip("/") for name in OWN for place in re.finditer(r"/|$", name) if "north" in name or "override" in name}
    left = {name for name in chroot.files() - before - own if "__pycache__" not in name and "var/cache" not in name}
    count.case(left <= {"etc/systemd/system/multi-user.target.wants", "var/lib/private"}, f"purge: it leaves {sorted(left)[:5]}")


def judge_chroot(count, package, base, folder):
    made = base or os.path.join(folder, "base")
    if os.geteuid() != 0 or not (os.path.isdir(made) or shutil.which("debootstrap")):
        print("left out: the chroot (it takes root and debootstrap)")
        return
    if not os.path.isdir(made):
        bootstrapped = run(["debootstrap", "--variant=minbase", SUITE, made], timeout=1800)
        if bootstrapped.returncode:
            print(f"left out: the chroot (debootstrap: {said(bootstrapped)})")
            return
    chroot = Chroot(made, folder)
    before = chroot.files()
    earlier = earlier_package(package, folder)
    first = chroot.install(earlier)
    count.case(first.returncode == 0, f"install the version before: {said(first)}")
    write_own(chroot.root)
    judge_upgrades(count, chroot, {"upgrade from the version before": package})
    purged = chroot.dpkg("-P", "telegate")
    count.case(purged.returncode == 0, f"purge: {said(purged)}")
    judge_first_installation(count, chroot, package)
    write_own(chroot.root)
    above = next_package(package, folder)
    judge_upgrades(count, chroot, {"the same version again": package, "upgrade": above, "back to the version before": package})
    judge_removal(count, chroot, package, before)


def a_package(count, program, folder):
    """The package, and with --chroot its whole life."""
    lacks = [name for name in ("dpkg-deb", "objdump", "strip") if not shutil.which(name)]
    if lacks:
        raise frame.Skipped(f"no {', '.join(lacks)}")
    judge_origins(count, program, os.path.join(folder, "origins"))
    judge_releases(count, program, os.path.join(folder, "releases"))
    judge_checkout(count, program, os.path.join(folder, "checkout"))
    package = judge_package(count, program, folder)
    if package and (count.options.chroot or count.options.base):
        judge_chroot(count, package, count.options.base, folder)


if __name__ == "__main__":
    frame.main(
        judge_install_script,
        judge_units,
        judge_starts,
        judge_postinst,
        records,
        installed_origins,
        a_package,
        words={
            "--chroot": {"action": "store_true", "help": "install, upgrade and purge it in a Debian of its own"},
            "--base": {"metavar": "FOLDER", "help": "where what debootstrap made is kept"},
        },
    )
