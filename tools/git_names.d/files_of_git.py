"""Configuration files that git's own commands write."""

import os
import subprocess
from itertools import product

# Ways to make a repository, each with what is done in it then.
INITS = [[], ["--bare"], ["--shared=group"], ["--shared=0660"], ["-b", "trunk"], ["--object-format=sha256"], ["--separate-git-dir=../{name}.git"]]
CLONES = [[], ["--bare"], ["--mirror"], ["--depth=1"], ["--filter=blob:none"], ["-o", "up"], ["--single-branch"], ["--no-tags"], ["--sparse"],
          ["-c", "core.autocrlf=input", "-c", "remote.up.tagOpt=--no-tags"], ["--recurse-submodules"], ["--no-checkout", "-b", "main"]]
AFTER = [
    [],
    [["remote", "add", "-t", "main", "-m", "main", "more", "../from"], ["remote", "set-url", "--add", "--push", "more", "git@host:x"]],
    [["remote", "add", "--mirror=fetch", "mirror", "../from"], ["remote", "rename", "mirror", "other"], ["remote", "set-branches", "--add", "other", "x"]],
    [["config", "core.hooksPath", "~/hooks"], ["config", "alias.l", "!git log"], ["config", "pager.log", "less"], ["config", "color.diff.old", "red"]],
    [["config", "extensions.worktreeConfig", "true"], ["config", "--worktree", "core.sparseCheckout", "true"]],
    # as Git LFS, the program gh, an editor and a credential manager write them
    [["config", "filter.lfs.process", "git-lfs filter-process"], ["config", "filter.lfs.required", "true"], ["config", "lfs.repositoryformatversion", "0"],
     ["config", "lfs.https://host/x.git/info/lfs.access", "basic"], ["config", "remote.up.lfsurl", "https://host/x"], ["config", "remote.up.gh-resolved", "base"],
     ["config", "branch.main.vscode-merge-base", "origin/main"], ["config", "credential.https://host.provider", "generic"],
     ["config", "delta.navigate", "true"], ["config", "hub.protocol", "ssh"], ["config", "annex.uuid", "1"]],
]
# In a repository with a commit.
MORE = [
    [["worktree", "add", "../{name}-tree"], ["-C", "../{name}-tree", "sparse-checkout", "set", "--cone", "a"]],
    [["sparse-checkout", "set", "--no-cone", "a"]],
    [["sparse-checkout", "init", "--cone"], ["sparse-checkout", "disable"]],
    [["maintenance", "register"]],
    [["branch", "--track", "side", "HEAD"], ["branch", "-m", "side", "aside"], ["config", "branch.aside.description", "what it is"]],
    [["-c", "protocol.file.allow=always", "submodule", "add", "-b", "main", "../from", "sub"], ["submodule", "set-url", "sub", "../from"], ["submodule", "deinit", "-f", "sub"]],
    [["checkout", "-b", "topic", "--track", "main"], ["config", "branch.topic.rebase", "interactive"]],
    [["push", "-u", "../{name}-to.git", "main"]],
]
GLOBAL = [("user.name", "Ada"), ("user.email", "ada@example.org"), ("init.defaultBranch", "main"), ("core.editor", "vi"), ("push.default", "simple"),
          ("pull.rebase", "true"), ("merge.conflictStyle", "diff3"), ("diff.tool", "meld"), ("difftool.meld.cmd", "meld $LOCAL"), ("rerere.enabled", "1"),
          ("url.git@host:.insteadOf", "https://host/"), ("http.https://host.sslVerify", "false"), ("commit.gpgSign", "false"), ("gpg.ssh.program", "x"),
          ("log.date", "iso"), ("tag.sort", "-version:refname"), ("sendemail.smtpServer", "mail"), ("includeIf.gitdir:~/w/.path", "w"), ("gui.recentrepo", "/x"),
          ("color.ui", "auto"), ("column.ui", "auto"), ("credential.helper", "store"), ("filter.lfs.clean", "git-lfs clean -- %f"), ("help.autoCorrect", "prompt")]


class Git:
    """git in a room of its own, with no files of the machine's."""

    def __init__(self, room):
        self.room = room
        home = room / "home"
        home.mkdir()
        self.environment = {"PATH": os.environ["PATH"], "HOME": str(home), "GIT_CONFIG_NOSYSTEM": "1", "GIT_TERMINAL_PROMPT": "0"}

    def run(self, directory, words):
        """Runs git; what it refuses leaves no more than it wrote."""
        subprocess.run(["git", *words], cwd=directory, env=self.environment, stdin=subprocess.DEVNULL, stdout=subprocess.DEVNULL,
                       stderr=subprocess.DEVNULL, check=False)

    def run_all(self, directory, calls, name):
        for call in calls:
            self.run(directory, [word.replace("{name}", name) for word in call])


def files_made(room):
    """The paths of the files that git writes in a room."""
    git = Git(room)
    for name, value in GLOBAL:
        git.run(room, ["config", "--global", name, value])
    git.run(room, ["init", "from"])
    (room / "from/a").write_text("a\n")
    git.run_all(room / "from", [["add", "a"], ["commit", "-m", "a"], ["branch", "x"], ["config", "uploadpack.allowFilter", "true"]], "from")
    for at, (init, after) in enumerate(product(INITS, AFTER)):
        name = f"init{at}"
        git.run(room, ["init", *[word.replace("{name}", name) for word in init], name])
        git.run_all(room / name, after, name)
    for at, (clone, after) in enumerate(product(CLONES, AFTER)):
        name = f"clone{at}"
        git.run(room, ["clone", *clone, "file://" + str(room / "from"), name])
        git.run_all(room / name, after, name)
    for at, after in enumerate(MORE):
        name = f"more{at}"
        git.run_all(room, [["clone", "from", name], ["init", "--bare", f"{name}-to.git"]], name)
        git.run_all(room / name, after, name)
    return [path for path in sorted(room.rglob("*")) if path.name in ("config", "config.worktree", ".gitmodules", ".gitconfig") and path.is_file()]
