"""The language server: requests of the editor, and what answers them."""

from __future__ import annotations

import queue
import threading
from collections.abc import Callable
from dataclasses import dataclass, field
from typing import Any

from .. import formatting
from ..program import Program, Stop
from . import completion, diagnostics, hovers, navigation
from .documents import Document
from .protocol import INTERNAL_ERROR, INVALID_PARAMS, METHOD_NOT_FOUND, Connection, Json, Refusal

CAPABILITIES: Json = {
    "positionEncoding": "utf-16",
    "textDocumentSync": {"openClose": True, "change": 2, "save": {"includeText": False}},
    "hoverProvider": True,
    "definitionProvider": True,
    "referencesProvider": True,
    "documentSymbolProvider": True,
    "documentFormattingProvider": True,
    "completionProvider": {"triggerCharacters": ["(", ",", " "]},
}


@dataclass
class Server:
    """The open documents of an editor. `find` finds the program, which is asked on save and for
    hovers.
    """

    connection: Connection
    find: Callable[[], Program]
    documents: dict[str, Document] = field(default_factory=dict)
    # Documents that were changed and not yet shown with their faults.
    changed: set[str] = field(default_factory=set)
    is_shut_down: bool = False

    def serve(self) -> int:
        """Answers messages up to `exit`, and returns the status. Faults are shown when no message
        waits.
        """
        waiting: queue.Queue[Json | None] = queue.Queue()
        threading.Thread(target=self.receive, args=(waiting,), daemon=True).start()
        message: Json | None = {}
        while message is not None and message.get("method") != "exit":
            if message:
                self.take(message)
            if waiting.empty():
                self.show_changed()
            message = waiting.get()
        self.show_changed()
        return 0 if self.is_shut_down else 1

    def receive(self, waiting: queue.Queue[Json | None]) -> None:
        """Reads messages up to `exit`, behind which nobody waits for the input."""
        message: Json | None = {}
        while message is not None and message.get("method") != "exit":
            message = self.connection.read()
            waiting.put(message)

    def take(self, message: Json) -> None:
        """Handles a message. A request gets one answer, also if something goes wrong."""
        method, number = message.get("method"), message.get("id")
        try:
            handler = HANDLERS.get(method or "")
            if handler is None:
                raise Refusal(METHOD_NOT_FOUND, f"there is no method {method}")
            result = handler(self, message.get("params") or {})
        except Refusal as refusal:
            error = {"code": refusal.code, "message": refusal.message}
        except (KeyError, TypeError, AttributeError, ValueError) as mistake:
            error = {
                "code": INVALID_PARAMS, "message": f"{method}: {type(mistake).__name__}: {mistake}"
            }
        except Stop as stop:
            error = {"code": INTERNAL_ERROR, "message": stop.message}
        except OSError:  # the editor is gone
            raise
        except Exception as mistake:  # one request that is not answered is no end of the others
            error = {"code": INTERNAL_ERROR, "message": f"{type(mistake).__name__}: {mistake}"}
        else:
            if number is not None:
                self.connection.write({"id": number, "result": result})
            return
        if number is not None:
            self.connection.write({"id": number, "error": error})

    def document(self, params: Json) -> Document:
        uri = params["textDocument"]["uri"]
        if uri not in self.documents:
            raise Refusal(INVALID_PARAMS, f"{uri} is not open")
        return self.documents[uri]

    # ---- faults

    def show_changed(self) -> None:
        """Shows the faults that the parser finds in what was changed."""
        for uri in list(self.changed):
            document = self.documents.get(uri)
            if document:
                self.publish(document, diagnostics.of_the_parser(document))
        self.changed.clear()

    def publish(self, document: Document, found: list[Json]) -> None:
        params = {"uri": document.uri, "version": document.version, "diagnostics": found}
        self.connection.notify("textDocument/publishDiagnostics", params)

    # ---- notifications

    def open(self, params: Json) -> None:
        opened = params["textDocument"]
        data = opened["text"].encode("utf-8", "replace")
        self.documents[opened["uri"]] = Document(opened["uri"], data, opened["version"])
        self.changed.add(opened["uri"])

    def change(self, params: Json) -> None:
        document = self.document(params)
        version = params["textDocument"].get("version") or document.version
        self.documents[document.uri] = document.changed(version, params["contentChanges"])
        self.changed.add(document.uri)

    def save(self, params: Json) -> None:
        """Shows what the program says of the text, and warnings."""
        document = self.document(params)
        try:
            found = diagnostics.of_the_program(document, self.find())
        except Stop as stop:
            self.connection.notify("window/showMessage", diagnostics.failed(stop))
            found = diagnostics.of_the_parser(document)
        self.changed.discard(document.uri)
        self.publish(document, found)

    def close(self, params: Json) -> None:
        document = self.document(params)
        del self.documents[document.uri]
        self.changed.discard(document.uri)
        self.publish(document, [])

    # ---- requests

    def initialize(self, params: Json) -> Json:
        return {
            "capabilities": CAPABILITIES, "serverInfo": {"name": "tilugba-desk language-server"}
        }

    def shutdown(self, params: Json) -> None:
        self.is_shut_down = True

    def hover(self, params: Json) -> Json | None:
        document = self.document(params)
        return hovers.hover(document, document.at(params["position"]), self.find())

    def definition(self, params: Json) -> Json | None:
        document = self.document(params)
        return navigation.definition(document, document.at(params["position"]))

    def references(self, params: Json) -> list[Json]:
        document = self.document(params)
        declaration = params.get("context", {}).get("includeDeclaration", True)
        return navigation.references(document, document.at(params["position"]), declaration)

    def outline(self, params: Json) -> list[Json]:
        return navigation.outline(self.document(params))

    def completion(self, params: Json) -> list[Json]:
        document = self.document(params)
        return completion.items(document, document.at(params["position"]))

    def formatting(self, params: Json) -> list[Json] | None:
        """The text in its layout, as one edit; a text with a fault stays as it is."""
        document = self.document(params)
        if document.reading.fault:
            return None
        laid = formatting.formatted(document.reading)
        # Whether the last line is ended is up to the editor.
        laid = laid if document.data.endswith(b"\n") else laid.removesuffix("\n")
        return (
            []
            if laid.encode() == document.data
            else [{"range": document.range(0, len(document.data)), "newText": laid}]
        )

    def nothing(self, params: Json) -> None:
        """A notification that asks for nothing."""


HANDLERS: dict[str, Callable[[Server, Json], Any]] = {
    "initialize": Server.initialize,
    "initialized": Server.nothing,
    "shutdown": Server.shutdown,
    "textDocument/didOpen": Server.open,
    "textDocument/didChange": Server.change,
    "textDocument/didSave": Server.save,
    "textDocument/didClose": Server.close,
    "textDocument/hover": Server.hover,
    "textDocument/definition": Server.definition,
    "textDocument/references": Server.references,
    "textDocument/documentSymbol": Server.outline,
    "textDocument/completion": Server.completion,
    "textDocument/formatting": Server.formatting,
    "$/cancelRequest": Server.nothing,
    "$/setTrace": Server.nothing,
    "workspace/didChangeConfiguration": Server.nothing,
}
