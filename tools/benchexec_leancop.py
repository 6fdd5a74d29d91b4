"""BenchExec's module for leancop: copy it as benchexec/tools/leancop.py, or name it in a benchmark as tool="benchexec_leancop" with
its folder in PYTHONPATH. Options of a benchmark, such as --logic=d, are those of `leancop prove`."""
from __future__ import annotations

from typing import Any

import benchexec.result as result
import benchexec.tools.template


class Tool(benchexec.tools.template.BaseTool2):
    REQUIRED_PATHS = ["."]

    def executable(self, tool_locator: Any) -> Any:
        return tool_locator.find_executable("leancop-szs")

    def name(self) -> str:
        return "leancop"

    def cmdline(self, executable: str, options: list[str], task: Any, rlimits: Any) -> list[str]:
        # with a time the greatest budget and path limit hold, where the options have no others
        seconds = rlimits.cputime or rlimits.walltime
        limit = ["--time=%d" % seconds] if seconds else []
        return [executable, *options, *limit, task.single_input_file]

    def determine_result(self, run: Any) -> str:
        for line in run.output:
            if line.startswith("% SZS status "):
                status = line.split()[3]
                if status in ("Theorem", "Unsatisfiable"):
                    return result.RESULT_TRUE_PROP
                if status in ("CounterSatisfiable", "Satisfiable"):
                    return result.RESULT_FALSE_PROP
                return "%s(%s)" % (result.RESULT_UNKNOWN, status)
        return result.RESULT_ERROR
