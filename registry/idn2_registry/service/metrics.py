"""What a dashboard reads at `/metrics`: counts and times in the text form of Prometheus."""

import resource
import time
from collections import Counter, defaultdict
from dataclasses import dataclass, field

# The upper ends of the classes of time, in seconds.
BOUNDS = (0.001, 0.0025, 0.005, 0.01, 0.025, 0.05, 0.1, 0.25, 0.5, 1.0, 2.5, 5.0, 10.0)
NAME = "idn2_registry"


@dataclass
class Metrics:
    """Counts since the start."""

    program: str
    answers: Counter[tuple[str, str]] = field(default_factory=Counter)
    times: Counter[tuple[str, float]] = field(default_factory=Counter)
    seconds: dict[str, float] = field(default_factory=lambda: defaultdict(float))
    responses: Counter[int] = field(default_factory=Counter)
    reloads: Counter[str] = field(default_factory=Counter)
    is_stale: bool = False
    connections: int = 0
    turned_away: int = 0
    start: float = field(default_factory=time.time)
    read: float = field(default_factory=time.time)

    def answered(self, job: str, status: str, seconds: float) -> None:
        """An answer to a label."""
        self.answers[job, status] += 1
        self.seconds[job] += seconds
        self.times[job, next((bound for bound in BOUNDS if seconds <= bound), float("inf"))] += 1

    def reloaded(self, is_done: bool) -> None:
        """The tables were read again, or are faulty."""
        self.is_stale = not is_done
        self.reloads["done" if is_done else "failed"] += 1
        self.read = time.time() if is_done else self.read

    def text(self) -> str:
        """All of them."""
        used = resource.getrusage(resource.RUSAGE_SELF)
        lines = [
            *metric("info", "gauge", "The program that answers.", {f'program="{escaped(self.program)}"': 1}),
            *metric("answers_total", "counter", "Answers to labels, by what they say. Those that are unknown say nothing.",
                    {f'job="{job}",status="{status}"': count for (job, status), count in sorted(self.answers.items())}),
            *self.histogram(),
            *metric("responses_total", "counter", "Responses, by their status.",
                    {f'status="{status}"': count for status, count in sorted(self.responses.items())}),
            *metric("connections", "gauge", "Connections that are open.", {"": self.connections}),
            *metric("turned_away_total", "counter", "Connections above the limit.", {"": self.turned_away}),
            *metric("reloads_total", "counter", "How often tables were to be read again.",
                    {f'result="{result}"': count for result, count in sorted(self.reloads.items())}),
            *metric("tables_are_stale", "gauge", "Whether they couldn't be read the last time, so that the old ones stay.",
                    {"": int(self.is_stale)}),
            *metric("tables_read_timestamp_seconds", "gauge", "When the tables were read.", {"": self.read}),
            *metric("start_timestamp_seconds", "gauge", "When the service was started.", {"": self.start}),
            *metric("processor_seconds_total", "counter", "Processor time of this process, without the program's.",
                    {"": used.ru_utime + used.ru_stime}),
        ]
        return "".join(f"{line}\n" for line in lines)

    def histogram(self) -> list[str]:
        """How long answers took."""
        samples: dict[str, float] = {}
        for job in sorted(self.seconds):
            below = 0
            for bound in (*BOUNDS, float("inf")):
                below += self.times[job, bound]
                samples[f'_bucket{{job="{job}",le="{"+Inf" if bound == float("inf") else bound}"}}'] = below
            samples[f'_sum{{job="{job}"}}'] = self.seconds[job]
            samples[f'_count{{job="{job}"}}'] = below
        head = metric("answer_seconds", "histogram", "How long answers to labels took.", {})
        return head + [f"{NAME}_answer_seconds{sample} {value}" for sample, value in samples.items()]


def metric(name: str, kind: str, meaning: str, samples: dict[str, float]) -> list[str]:
    """The lines of one metric, by the labels of its samples."""
    head = [f"# HELP {NAME}_{name} {meaning}", f"# TYPE {NAME}_{name} {kind}"]
    return head + [f"{NAME}_{name}{'{' + labels + '}' if labels else ''} {value}" for labels, value in samples.items()]


def escaped(text: str) -> str:
    """The value of a label."""
    return text.replace("\\", "\\\\").replace('"', '\\"').replace("\n", "\\n")
