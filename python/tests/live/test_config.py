"""Home files, and their mistakes."""

from pathlib import Path

import pytest

from roman_live.config import CommandReach, HomeFile, HomeFileError, HttpReach, MqttReach, PolicyName, PythonReach, Tls
from roman_live.limits import Limits

GOOD = """
document = "home.json"
program = "/opt/roman"
program_seconds = 30
[policy]
choose = "least worst"
costs = "home.costs"
requests = 12
[journal]
path = "state/journal"
[page]
host = "0.0.0.0"
port = 81
token_file = "token"
[limits]
connections = 500
listeners = 65
waiting = 20
messages = 50
silence = 5
unread = 2.5
[mqtt]
host = "broker"
port = 1884
username = "me"
password_file = "token"
prefix = "house"
[devices.window]
reach = "mqtt"
ask = "w/ask"
answer = "w/answer"
seconds = 2.5
repeat = true
[devices.ceiling]
reach = "http"
url = "http://10.0.0.2/lamp"
[devices.kettle]
reach = "command"
command = ["./kettle", "-q"]
lines = true
numbered = true
[devices.fan]
reach = "python"
call = "things.fans:fan"
"""

TOKEN = "7c1f0e5b9a3d4826b7e2c9f81d60a435"

DEVICE = 'document = "h"\n[devices.fan]\nreach = '

WRONG = (
    ("document = =", "at line 1, column 12"),
    ('documents = "h"', 'document is missing, as in document = "home.json"'),
    ("document = 5", "document is 5, and not a text"),
    ('document = "a\\u0000b"', r"document is 'a\x00b', and not a text"),
    ('document = "h"\n[page]\ntoken_file = "a\\u0000b"', r"page.token_file is 'a\x00b', and not a text"),
    (f'{DEVICE}"command"\ncommand = ["a\\u0000b"]', r"devices.fan.command is ['a\x00b'], and not a list of texts"),
    ('document = "h"\nprogram_seconds = 0', "program_seconds is 0, and not a number of seconds"),
    (
        'document = "h"\n[page]\nwatch_token_file = "token"',
        "page.watch_token_file is there, and token_file isn't",
    ),
    (
        'document = "h"\n[page]\ntoken_file = "token"\nwatch_token_file = "token"',
        "page.watch_token_file has the same token as token_file",
    ),
    ('document = "h"\n[limits]\nconnections = 7', "limits.connections is 7, and not a whole number from 8 to 100000"),
    ('document = "h"\n[limits]\nsilence = 0', "limits.silence is 0, and not a number of seconds"),
    ('document = "h"\nextra = 1', "extra isn't known; known are document, program, policy"),
    ('document = "h"\n[policy]\nchoose = "best"', "policy.choose is 'best', and not one of 'first'"),
    ('document = "h"\n[policy]\nchoose = "least cost"', "policy.costs is missing"),
    ('document = "h"\n[policy]\nrequests = 65', "policy.requests is 65, and not a whole number from 1 to 64"),
    ('document = "h"\n[policy]\ncosts = "c"', "policy.costs is there, and policy.choose is 'first', which takes none"),
    (
        'document = "h"\n[policy]\nchoose = "round robin"\ncosts = "c"',
        "policy.costs is there, and policy.choose is 'rou",
    ),
    ('document = "h"\n[policy]\nrequests = 8', "policy.requests is there, and policy.choose is 'first', which doesn't"),
    ('document = "h"\n[page]\nhost = "0.0.0.0"', "page.token_file is missing"),
    ('document = "h"\n[page]\nport = true', "page.port is True, and not a whole number"),
    ('document = "h"\n[page]\ntoken_file = "none"', "page.token_file is 'none', which can't be read"),
    ('document = "h"\n[page]\ntoken_file = "empty"', "page.token_file is 'empty', whose first line"),
    ('document = "h"\n[journal]', "journal.path is missing"),
    ('document = "h"\njournal = "x"', "journal isn't a table"),
    ('document = "h"\n[mqtt]\nprefix = "a/#"', "mqtt.prefix is 'a/#', and not a topic"),
    ('document = "h"\n[mqtt]\ntls = true', "mqtt.tls isn't a table"),
    ('document = "h"\n[mqtt.tls]\nca_file = "none"', "mqtt.tls.ca_file is 'none', which can't be used: [Errno 2]"),
    ('document = "h"\n[mqtt.tls]\nca_file = "token"', "mqtt.tls.ca_file is 'token', which can't be used"),
    ('document = "h"\n[mqtt.tls]\nkey_file = "token"', "mqtt.tls.certificate_file is missing"),
    ('document = "h"\n[mqtt.tls]\ncertificate_file = "none"', "mqtt.tls.certificate_file is 'none', which can't"),
    ('document = "h"\n[mqtt.tls]\nca = "x"', "mqtt.tls.ca isn't known; known are ca_file, certificate_file"),
    ('document = "h"\n[devices]\nfan = 1', "devices.fan isn't a table"),
    ('document = "h"\n[devices.fan]', 'devices.fan.reach is missing, as in reach = "mqtt" or "http"'),
    (f'{DEVICE}"radio"', "devices.fan.reach is 'radio', and not one of 'mqtt', 'http'"),
    (f'{DEVICE}"mqtt"\nask = "a"', "devices.fan.answer is missing"),
    (f'{DEVICE}"mqtt"\nask = "a"\nanswer = "b"', "devices.fan.reach is 'mqtt', and there is no table [mqtt]"),
    ('document = "h"\n[mqtt]\npassword_file = "token"', "mqtt.username is missing, whose password"),
    (f'{DEVICE}"mqtt"\nask = "a"\nanswer = "a"\n[mqtt]', "devices.fan.answer is 'a', and so is devices.fan.ask"),
    (
        f'{DEVICE}"mqtt"\nask = "a"\nanswer = "b"\n[devices.lamp]\nreach = "mqtt"\nask = "c"\nanswer = "b"\n[mqtt]',
        "devices.lamp.answer is 'b', and so is devices.fan.answer",
    ),
    (
        f'{DEVICE}"mqtt"\nask = "roman/requests"\nanswer = "b"\n[mqtt]',
        "devices.fan.ask is 'roman/requests', and so is one of mqtt.prefix",
    ),
    (f'{DEVICE}"http"\nurl = "ftp://x"', "devices.fan.url is 'ftp://x', and not a URL"),
    (f'{DEVICE}"http"\nurl = "http://x:70000/"', "devices.fan.url is 'http://x:70000/', and not a URL"),
    (f'{DEVICE}"http"\nurl = "http://[::1/"', "devices.fan.url is 'http://[::1/', and not a URL"),
    (f'{DEVICE}"http"\nurl = "http://x"\nseconds = 0', "devices.fan.seconds is 0, and not a number"),
    (f'{DEVICE}"command"\ncommand = "./x"', "devices.fan.command is './x', and not a list"),
    (f'{DEVICE}"command"\ncommand = ["x"]\nlines = 1', "devices.fan.lines is 1, and not true or false"),
    (f'{DEVICE}"command"\ncommand = ["x"]\nnumbered = true', "devices.fan.numbered is true, and lines isn't"),
    (f'{DEVICE}"python"\ncall = "fan"', "devices.fan.call is 'fan', and not a module and a name"),
    (f'{DEVICE}"http"\nurl = "http://x"\nlines = true', "devices.fan.lines isn't known; known are reach"),
    (
        f'{DEVICE}"http"\nurl = "http://x"\nlate = "never"',
        "devices.fan.late is 'never', and not one of 'failure', 'doubt'",
    ),
    (f'{DEVICE}"http"\nurl = "http://x"\npoll = 0', "devices.fan.poll is 0, and not a number of seconds"),
    (f'{DEVICE}"http"\nurl = "http://x/a b"', "devices.fan.url is 'http://x/a b', and not a URL"),
    (f'{DEVICE}"http"\nurl = "http://x/\\n"', "devices.fan.url is 'http://x/\\n', and not a URL"),
    (f'{DEVICE}"http"\nurl = "http://{"x" * 64}.org"', "and not a URL"),
    (
        'document = "h"\n[mqtt]\n[devices.fan]\nreach = "mqtt"\nask = "a"\nanswer = "b"\npoll = 1',
        "devices.fan.poll isn't known",
    ),
)


@pytest.fixture
def folder(tmp_path: Path) -> Path:
    """A folder with the files that a home file names."""
    (tmp_path / "token").write_text(f"{TOKEN}\nmore\n", encoding="utf-8")
    (tmp_path / "token").chmod(0o600)
    (tmp_path / "empty").write_text("\n", encoding="utf-8")
    return tmp_path


def read(folder: Path, text: str) -> HomeFile:
    file = folder / "home.toml"
    file.write_text(text, encoding="utf-8")
    return HomeFile.read(file)


def test_what_it_says(folder: Path) -> None:
    home = read(folder, GOOD)
    assert home.document == folder / "home.json"
    assert (home.program, home.program_seconds) == ("/opt/roman", 30.0)
    assert home.policy.choose == PolicyName.LEAST_WORST
    assert home.policy.costs == folder / "home.costs"
    assert home.policy.requests == 12
    assert home.journal == folder / "state/journal"
    assert (home.page.host, home.page.port, home.page.token) == ("0.0.0.0", 81, TOKEN)
    assert home.limits == Limits(500, 65, 20, 50, 5.0, 2.5)
    assert home.mqtt is not None
    assert (home.mqtt.host, home.mqtt.port, home.mqtt.prefix) == ("broker", 1884, "house")
    assert (home.mqtt.username, home.mqtt.password) == ("me", TOKEN)
    assert {name: entry.reach for name, entry in home.devices.items()} == {
        "window": MqttReach("w/ask", "w/answer"),
        "ceiling": HttpReach("http://10.0.0.2/lamp"),
        "kettle": CommandReach(("./kettle", "-q"), True, folder, True),
        "fan": PythonReach("things.fans", "fan", folder),
    }
    window, fan = home.devices["window"], home.devices["fan"]
    assert (window.seconds, window.repeat, window.reached) == (2.5, True, "mqtt")
    assert (fan.seconds, fan.repeat, fan.late_is_doubt, fan.poll) == (None, False, False, None)


def test_a_broker_over_tls(folder: Path) -> None:
    home = read(folder, 'document = "h"\n[mqtt]\nhost = "broker"\ntls = {}')
    assert home.mqtt is not None
    assert (home.mqtt.port, home.mqtt.tls) == (8883, Tls())


@pytest.mark.parametrize("text, expected", WRONG)
def test_what_is_wrong_is_named(folder: Path, text: str, expected: str) -> None:
    with pytest.raises(HomeFileError) as caught:
        read(folder, text)
    assert expected in str(caught.value)
    assert "home.toml: " in str(caught.value)


def test_no_file(folder: Path) -> None:
    with pytest.raises(HomeFileError, match="none.toml: No such file"):
        HomeFile.read(folder / "none.toml")


def test_a_deep_file(folder: Path) -> None:
    with pytest.raises(HomeFileError, match="home.toml: maximum recursion depth exceeded"):
        read(folder, f"a = {'[' * 100_000}")
