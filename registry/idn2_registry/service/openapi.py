"""The description of what is served, as OpenAPI 3.1 has it. A test compares it with what is served."""

from typing import Any

from ..answers import Object, Status
from ..requests import JOBS, TYPES
from .bodies import MOST_LABELS

KINDS = {str: "string", bool: "boolean", int: "integer"}
MEANINGS = {
    "label": "A U-label or an A-label.",
    "holder": "Who asks: the holder of a label may have variants of it. A label is registered with its holder.",
    "variants": "List the variants, too.",
    "table": "The table; else the first that admits the label.",
    "page": "At most so many variants, from 1. Without it a label that has more than the limits allow is unknown.",
    "after": "Only variants after this text: the `after` of the page before.",
}
SUMMARIES = {
    "check": "Whether a label is available, refused or taken",
    "variants": "The variants of a label",
    "tables-of": "Which tables admit a label",
    "register": "Registers a label that is available",
    "release": "Releases a label",
}


def kind(name: str, **more: Any) -> Object:
    """A value of a JSON type."""
    return {"type": name, **more}


def members(required: str = "", **properties: Object) -> Object:
    """An object with no other members."""
    return kind("object", properties=properties, required=required.split(), additionalProperties=False)


def named(name: str) -> Object:
    """A schema by its name."""
    return {"$ref": f"#/components/schemas/{name}"}


def meant(schema: Object, meaning: str) -> Object:
    """A schema with what it means."""
    return {**schema, "description": meaning}


TEXT = kind("string")
STATUS = kind("string", enum=[status.value for status in Status], description=(
    "refused: `refusal` says why. taken: `taken_by` has the labels that it collides with, also itself where it is registered. "
    "available: none of both. registered, released: it was done. free: it wasn't registered, so that nothing was released. "
    "listed: the variants of a label. admitted: `tables` admit a label. unknown: `reason` says why, and nothing else is said."))
SCHEMAS: Object = {
    "RegisteredLabel": members("ulabel alabel holder", ulabel=TEXT, alabel=TEXT, holder={"type": ["string", "null"]}),
    "Variant": members("ulabel alabel", ulabel=TEXT, alabel=TEXT, disposition=kind("string", enum=["allocatable", "blocked"])),
    "Refusal": kind("object", properties={"number": kind("integer"), "text": TEXT}, required=["text"],
                    description="Why a label is refused, of several tables by the one that comes furthest in it; a control "
                                "character has no number. Other members tell where and by which rule, as the text needs "
                                "them: code_point, place, byte, rule and others."),
    "Answer": members("status", label=TEXT, label_hex=meant(TEXT, "The bytes of a label that is no UTF-8."), status=STATUS,
                      ulabel=TEXT, alabel=TEXT, tables=kind("array", items=TEXT), refusal=named("Refusal"),
                      taken_by=kind("array", items=named("RegisteredLabel")), table=TEXT,
                      variants=kind("array", items=named("Variant")), complete=kind("boolean"),
                      after=meant(TEXT, "Where variants that aren't complete go on: ask with it as `after`."),
                      reason=meant(TEXT, "Why it isn't known.")),
    "Answers": members("answers", answers=kind("array", items=named("Answer"), maxItems=MOST_LABELS)),
    "Health": members("status program tables stale", status=kind("string", enum=["ready", "unknown"]), program=TEXT,
                      tables=kind("array", items=TEXT), reason=TEXT,
                      stale=meant(kind("boolean"), "The tables couldn't be read the last time, so that the old ones "
                                  "stay: the log says why.")),
    "Fault": members("fault", fault=TEXT),
}


UNKNOWN = ("Not known, which says nothing about a label: what was to be done was done or not. Ask again, a few times: if it "
           "stays unknown, the log tells the operator why.")


def response(meaning: str, schema: Object) -> Object:
    """A response with an object."""
    return {"description": meaning, "content": {"application/json": {"schema": schema}}}


def responses(schema: Object, *faults: int) -> Object:
    """The responses of an operation; with those faults that not every operation has."""
    again = {"Retry-After": {"description": "Ask again after so many seconds.", "schema": kind("integer")}}
    unknown = response(UNKNOWN, {"anyOf": [schema, named("Fault")]})
    told = {"200": response("The answer is known.", schema), "503": {**unknown, "headers": again},
            "400": response("No request of this operation. Nothing was done.", named("Fault"))}
    meanings = {401: "Without the token.", 408: "The body came too slowly.", 413: "The body is too long.",
                415: "The body isn't JSON, or is packed."}
    return told | {str(status): response(meanings[status], named("Fault")) for status in faults}


def value_schema(name: str) -> Object:
    """What a job takes by this name."""
    return kind(KINDS[TYPES.get(name, str)], description=MEANINGS[name])


def by_query(job: str) -> Object:
    """The operation that a query asks for."""
    parameters = [{"name": name, "in": "query", "required": name == "label", "schema": value_schema(name)}
                  for name in ("label", *JOBS[job])]
    return {"operationId": job, "summary": SUMMARIES[job], "parameters": parameters, "responses": responses(named("Answer"))}


def by_body(job: str, answer: str, **labels: Object) -> Object:
    """The operation that a body asks for."""
    schema = members(" ".join(labels), **labels, **{name: value_schema(name) for name in JOBS[job]})
    return {"summary": SUMMARIES[job], "requestBody": {"required": True, "content": {"application/json": {"schema": schema}}},
            "responses": responses(named(answer), 408, 413, 415)}


def changing(job: str) -> Object:
    """An operation that changes the register."""
    operation = by_body(job, "Answer", label=value_schema("label"))
    operation["responses"] |= responses(named("Answer"), 401)
    return {**operation, "operationId": job, "security": [{"token": []}]}


def described(may_change: bool) -> Object:
    """All of it."""
    labels = kind("array", items=value_schema("label"), maxItems=MOST_LABELS)
    health = {"operationId": "health", "summary": "Whether labels can be answered",
              "responses": {status: told for status, told in responses(named("Health")).items() if status != "400"}}
    itself = {"operationId": "openapi", "summary": "This description", "responses": {"200": response("It.", kind("object"))}}
    paths: Object = {f"/v1/{job}": {"get": by_query(job)} for job in ("check", "variants", "tables-of")}
    paths["/v1/check"]["post"] = {**by_body("check", "Answers", labels=labels), "operationId": "check-all"}
    paths |= {f"/v1/{job}": {"post": changing(job)} for job in ("register", "release") if may_change}
    paths |= {"/v1/health": {"get": health}, "/v1/openapi.json": {"get": itself}}
    schemes = {"securitySchemes": {"token": {"type": "http", "scheme": "bearer"}}} if may_change else {}
    return {"openapi": "3.1.0", "info": {"title": "idn2-registry", "version": "1"}, "paths": paths,
            "components": {"schemas": SCHEMAS, **schemes}}
