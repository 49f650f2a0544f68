"""The command line, and what onlayer says to it."""

# The command line: words, status, what standard error has to say.
WORDS = [
    (["--nope", "--", "true"], 2, "unknown option '--nope'"),
    (["--qlimit", "0", "--", "true"], 2, "--qlimit wants a number from 1 to 1048576"),
    (["--qlimit"], 2, "a value is missing"),
    (["--fail", "x:1:EIO", "--", "true"], 2, "no call of a socket is named 'x'"),
    (["--fail", "ptrace:1:EIO", "--", "true"], 2, "no call of a socket is named 'ptrace'"),
    (["--fail", "read:1:EX", "--", "true"], 2, "no error is named 'EX'"),
    (["--holders", "soon", "--", "true"], 2, "--holders wants"),
    ([], 2, "no command"),
    (["--", "/nowhere/program"], 127, "can't execute /nowhere/program"),
    (["--", "/etc/passwd"], 126, "can't execute /etc/passwd"),
    (["--uxserve", "/nowhere", "--", "true"], 125, "there is no uxserve at /nowhere"),
    (["--uxrun", "/nowhere", "--audit", "end", "--", "true"], 125, "there is no uxrun at /nowhere"),
    (["--script", "/nowhere/x", "--", "true"], 125, "can't write /nowhere/x"),
    (["--", "sh", "-c", "exit 3"], 3, "0 refused"),
    (["--", "sh", "-c", "kill -TERM $$"], 128 + 15, ""),
    (["--quiet", "--", "true"], 0, ""),
]
