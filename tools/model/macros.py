"""Macros: definitions, execute, call, and the overlay."""

MOST_LEVELS = 2
MOST_LEVELS_IN_OVERLAY = 1

BEGIN, END, EXECUTE, CALL, OVERLAY_ON, OVERLAY_OFF = 0, 1, 2, 3, 4, 5
DELETE_ALL, DELETE_TEMPORARY, DELETE, MAKE_TEMPORARY, MAKE_PERMANENT = 6, 7, 8, 9, 10


def control(engine, number):
    """Macro control by its number. A generator where a body starts."""
    state = engine.state
    if number == BEGIN:
        begin(engine)
    elif number == END:
        end(state)
    elif number == EXECUTE:
        return execute(engine)
    elif number == CALL:
        return call(engine)
    elif number == OVERLAY_ON:
        state.overlay = state.macro_id
    elif number == OVERLAY_OFF:
        state.overlay = None
    elif number == DELETE_ALL:
        state.macros.clear()
        state.permanent_macros.clear()
    elif number == DELETE_TEMPORARY:
        state.delete_temporary_macros()
    elif number == DELETE:
        state.macros.pop(state.macro_id, None)
        state.permanent_macros.discard(state.macro_id)
    elif number == MAKE_TEMPORARY:
        state.permanent_macros.discard(state.macro_id)
    elif number == MAKE_PERMANENT and state.macro_id in state.macros:
        state.permanent_macros.add(state.macro_id)
    else:
        engine.names(number == MAKE_PERMANENT)
    return None


def begin(engine):
    if engine.depth == 0:
        engine.state.defining = engine.state.macro_id
        engine.state.definition = []


def end(state):
    """The macro replaces an older one and is temporary."""
    if state.defining is not None:
        state.macros[state.defining] = tuple(state.definition)
        state.permanent_macros.discard(state.defining)
        state.defining = None
        state.definition = []


def run_body(engine, body):
    """The commands of a body in order. Each step ends where the next command of a body would be taken."""
    engine.depth += 1
    for command in body:
        yield
        yield from engine.run(command)
    engine.depth -= 1


def run_macro(engine, body):
    engine.level += 1
    yield from run_body(engine, body)
    engine.level -= 1


def body_to_start(engine):
    """The body of the macro ID, or None where none may start."""
    most = MOST_LEVELS_IN_OVERLAY if engine.in_overlay else MOST_LEVELS
    if engine.level >= most:
        return None
    return engine.state.macros.get(engine.state.macro_id)


def execute(engine):
    body = body_to_start(engine)
    if body is not None:
        yield from run_macro(engine, body)


def call(engine):
    state = engine.state
    body = body_to_start(engine)
    if body is not None:
        kept = state.kept()
        state.end_raster()
        yield from run_macro(engine, body)
        state.end_raster()
        state.restore(kept)


def run_overlay(engine):
    """The overlay's body in its own environment, at a page close."""
    state = engine.state
    assert not engine.in_overlay
    if state.overlay not in state.macros:
        return
    kept, x, y, level = state.kept(), state.x, state.y, engine.level
    state.set_call_fields()
    state.default_margins()
    state.home()
    engine.in_overlay = True
    engine.level = 0
    yield from run_body(engine, state.macros[state.overlay])
    engine.in_overlay = False
    engine.level = level
    state.end_raster()
    state.restore(kept)
    state.place_cursor(x, y)
