"""The requests that look at a run: threads, frames, scopes, variables, expressions and sources."""

from llbm_tools.debugging import console
from llbm_tools.debugging.adapter_state import FIRST_FILE, TEXT, Holding
from llbm_tools.debugging.request_arguments import Object, argument
from llbm_tools.debugging.step_lines import Span, spans_of, step_shown
from llbm_tools.streams import Refused


class Inspecting(Holding):
    """An adapter's answers to requests that look."""

    def worker(self, arguments: Object) -> int:
        """Returns the worker of a thread."""
        thread = argument(arguments, "threadId", int)
        if not 1 <= thread <= len(self.launched.session.runs):
            raise Refused(f"there is no thread {thread}")
        return thread - 1

    def threads(self, _: Object) -> Object:
        """Returns the workers, each with the vertex that it runs."""
        threads = []
        for worker, run in enumerate(self.launched.session.runs):
            doing = "idle" if run is None else self.views.title(run.vertex)
            threads.append({"id": worker + 1, "name": f"worker {worker}, {doing}"})
        return {"threads": threads}

    def stack_trace(self, arguments: Object) -> Object:
        """Returns the frames of a worker: where the vertex that it runs, or settled last, comes from, and its op."""
        worker = self.worker(arguments)
        first, most = argument(arguments, "startFrame", int, 0), argument(arguments, "levels", int, 0)
        vertex = self.views.vertex_of(worker)
        frames = [] if vertex is None else [*self.file_frames(worker, vertex), self.frame(worker, vertex)]
        return {"stackFrames": frames[max(first, 0) :][: most if most > 0 else None], "totalFrames": len(frames)}

    def frame(self, worker: int, vertex: int) -> Object:
        """Returns the frame of a vertex, at its micro-step in the text of the entries."""
        span = self.span(worker, vertex)
        frame: Object = {
            "id": worker + 1,
            "name": f"{self.views.title(vertex)} ({self.views.progress(worker)})",
            "source": self.source(),
            "line": self.line(span.first),
            "endLine": self.line(span.last),
            "column": self.column(span.column),
        }
        return frame | ({"endColumn": self.column(span.end_column)} if span.end_column else {})

    def span(self, worker: int, vertex: int) -> Span:
        """Returns the place of a worker's next micro-step, or of the one that failed; else that of the entry."""
        known = self.launched.graph.vertices[vertex]
        step = step_shown(self.launched.session, worker, known)
        if step is None or known.kind == "source":
            return Span(known.first, known.last)
        return spans_of(self.launched.graph, known)[step]

    def file_frames(self, worker: int, vertex: int) -> list[Object]:
        """Returns the frame of a vertex in the file that it was made from, if that is known."""
        known, origins = self.launched.graph.vertices[vertex], self.launched.origins
        for one in origins.ranges[known.entry]:
            source = self.file_source(one.file)
            if source:
                frame: Object = {"id": len(self.launched.session.runs) + worker + 1, "name": self.views.title(vertex)}
                lines = {"line": self.line(one.first), "endLine": self.line(one.last), "column": self.column(1)}
                return [{**frame, "source": source, **lines}]
        return []

    def scopes(self, arguments: Object) -> Object:
        """Returns the scopes of a frame; both frames of a worker have the same."""
        frame, count = argument(arguments, "frameId", int), len(self.launched.session.runs)
        worker = (frame - 1) % count
        vertex = self.views.vertex_of(worker) if 1 <= frame <= 2 * count else None
        if not 1 <= frame <= 2 * count or frame > count and (vertex is None or not self.file_frames(worker, vertex)):
            raise Refused(f"frameId {frame} is not known")
        return {"scopes": self.views.scopes(worker)}

    def typed(self, variable: Object) -> Object:
        """Removes the type of a variable or a result if the client does not support types."""
        knows = self.client.get("supportsVariableType") is True
        return variable if knows else {name: value for name, value in variable.items() if name != "type"}

    def variables(self, arguments: Object) -> Object:
        """Returns the variables of a reference, or some of them. All variables have names, none is indexed."""
        reference = argument(arguments, "variablesReference", int)
        first, most = argument(arguments, "start", int, 0), argument(arguments, "count", int, 0)
        if argument(arguments, "filter", str, "named") == "indexed":
            return {"variables": []}
        found = self.views.variables(reference)[max(first, 0) :]
        return {"variables": list(map(self.typed, found[:most] if most > 0 else found))}

    def evaluate(self, arguments: Object) -> Object:
        """Evaluates an expression; in the console it may be a command of a session that looks."""
        expression = argument(arguments, "expression", str)
        if argument(arguments, "context", str, "") == "repl":
            result = console.looked(self.launched.session, expression.strip())
            if result is not None:
                return {"result": result, "variablesReference": 0}
        return self.typed(self.views.evaluate(expression))

    def source_text(self, arguments: Object) -> Object:
        """Returns the text of the entries, or that of a file that the definition was made from."""
        source: Object = argument(arguments, "source", dict, {})
        reference = argument(arguments, "sourceReference", int, 0) or argument(source, "sourceReference", int, 0)
        files = self.launched.origins.files
        if not self.launched.file and reference == TEXT:
            return {"content": self.launched.graph.text}
        if 0 <= reference - FIRST_FILE < len(files) and files[reference - FIRST_FILE].text:
            return {"content": files[reference - FIRST_FILE].text}
        raise Refused(f"sourceReference {reference} is not known")

    def loaded_sources(self, _: Object) -> Object:
        """Returns the text of the entries, and the files that the definition was made from as far as they are known."""
        files = [self.file_source(number) for number in range(len(self.launched.origins.files))]
        return {"sources": [self.source(), *(source for source in files if source)]}
