"""Programs that stand in for the proved ones of a clone: they note what they are handed, and answer as they are told."""

# What verifies: it notes its words and what the provider file and the policy held, and answers by its artifact, or as it is told.
PROGRAM = """#!/bin/sh
printf '%s\\0' "$@" >>'{notes}/program'
printf '\\0' >>'{notes}/program'
artifact=
for word; do
    case $word in
    --provider=*) cp -- "${{word#*=}}" '{notes}/provider' ;;
    --policy=*) [ ! -f "${{word#*=}}" ] || cp -- "${{word#*=}}" '{notes}/policy' ;;
    --artifact=*) artifact=${{word#*=}} ;;
    esac
done
case $artifact in
*bad*)
    echo 'refused verify 4 ArtifactMismatch'
    exit 1
    ;;
esac
cat '{notes}/said'
exit "$(cat '{notes}/status')"
"""
# What asks: it writes the rows that stand in a bundle, takes no word that only the other one has, and each word once.
QUESTIONS = """#!/bin/sh
[ "$1" = questions ] || exit 2
printf '%s\\0' "$@" >>'{notes}/questions'
printf '\\0' >>'{notes}/questions'
seen=' ' bundle=
for word; do
    case $word in
    --bundles* | --details* | --statement* | --provider*) echo usage; exit 2 ;;
    --digest=*) ;;
    --*)
        case "$seen" in *" ${{word%%=*}} "*) echo usage; exit 2 ;; esac
        seen="$seen${{word%%=*}} "
        ;;
    esac
    case $word in --bundle=*) bundle=${{word#*=}} ;; esac
done
[ -r "$bundle" ] || {{ echo 'input bundle'; exit 3; }}
grep -a -e '^armor ' -e '^accept ' -- "$bundle"
exit 0
"""


class Recorder:
    """The stand-ins of a clone, with a folder for what they note."""

    def __init__(self, clone, program_at, questions_at, notes):
        self.notes = notes
        notes.mkdir()
        for at, text in ((clone / program_at, PROGRAM), (clone / questions_at, QUESTIONS)):
            at.write_text(text.format(notes=notes))
            at.chmod(0o755)

    def answers(self, text, status):
        """From now on this is said."""
        for path in self.notes.iterdir():
            path.unlink()
        (self.notes / "said").write_text(text)
        (self.notes / "status").write_text(f"{status}\n")

    def runs(self, name):
        """The words of each run of a program since then."""
        path = self.notes / name
        octets = path.read_bytes() if path.exists() else b""
        return [[word.decode("utf-8", "surrogateescape") for word in run.split(b"\0")] for run in octets.split(b"\0\0")[:-1]]

    def text(self, name):
        path = self.notes / name
        return path.read_text() if path.exists() else None
