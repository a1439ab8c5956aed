"""What the changes touched by which siblings of each kind came in, as the history of the repository has it: `tools/places --like` has to name these
rooms."""

TOUCHED = {
    "A3": """
        crates/press_page/specs/PageSetup.antt crates/press_page/specs/Environment.antt crates/press_page/src/media.rt crates/press_page/src/numbered.rt
        crates/press_page/src/defaults.rt crates/press_pjl/specs/Names.antt crates/press_pjl/src/named.rt crates/press_ticket/specs/Names.antt
        crates/press_ticket/src/media.rt crates/press_ticket/src/parts.rt crates/press_writer/specs/Medium.antt crates/press_writer/src/media.rt
        crates/press_words/src/words.rt tools/model/pages.py tools/model/pjl.py tools/model/table.py tools/model/streams.py tools/model/writer.py
        tools/model/switches/pages.py tools/model/switches/language.py tools/asked/sheets.py tools/asked/jobs.py tools/asked/job_language.py
        docs/TICKETS.md README.md""",
    "BINDING": """
        crates/press_pjl/specs/Names.antt crates/press_pjl/specs/Variables.antt crates/press_pjl/src/named.rt crates/press_pjl/src/variable.rt
        crates/press_pjl/src/environment.rt crates/press_page/src/environment.rt crates/press_page/specs/Environment.antt crates/press_words/src/words.rt
        crates/press_trace/src/fields.rt crates/press_trace/specs/Fields.antt tools/model/pjl.py tools/model/state.py tools/model/streams.py
        tools/model/switches/language.py tools/asked/job_language.py tools/seen/fields.py docs/TRACE.md""",
    "613": """
        crates/press_writer/specs/Faults.antt crates/press_writer/specs/Fitting.antt crates/press_writer/src/fault.rt crates/press_writer/src/checking.rt
        crates/press_words/src/words.rt tools/model/ticket.py tools/model/switches/jobs.py tools/asked/jobs.py tools/asked/told.txt
        tools/reasons/__init__.py tools/reasons/mistakes.py docs/FAULTS.md docs/TICKETS.md docs/QUEUE.md docs/PROVED.md""",
    "DeltaRow": """
        crates/press_rows/specs/Methods.antt crates/press_rows/specs/Blocks.antt crates/press_rows/specs/Encoding.antt crates/press_rows/src/compression.rt
        crates/press_rows/src/decoder.rt crates/press_rows/src/encoder.rt crates/press_rows/src/blocks.rt crates/press_raster/specs/Settings.antt
        crates/press_raster/specs/Rows.antt crates/press_raster/src/settings.rt crates/press_raster/src/drawing.rt crates/press_writer/specs/Picture.antt
        tools/model/rows.py tools/model/marks.py tools/model/table.py tools/model/streams.py tools/model/switches/raster.py tools/asked/pages.py
        docs/DEFINITIONS.md""",
    "HoldQueueEntry": """
        crates/press_queue/specs/Legal.antt crates/press_queue/specs/Rows.antt crates/press_queue/src/queue.rt crates/press_queue/src/command.rt
        crates/press_core/specs/Messages.antt crates/press_core/specs/Rows.antt crates/press_core/src/message_type.rt crates/press_core/src/commands.rt
        tools/model/press.py tools/model/job_queue.py tools/model/sessions.py tools/asked/sessions.py tools/reasons/sessions.py docs/QUEUE.md""",
    "disasm": """
        crates/press_words/specs/Words.antt crates/press_main/specs/Program.antt crates/press_words/specs/View.antt crates/press_forms/specs/Faults.antt
        crates/press_words/src/words.rt crates/press_words/src/subcommands.rt crates/press_main/src/program.rt crates/press_main/src/tables.rt
        crates/press_main/src/making.rt crates/press_main/src/sparing.rt tools/model/program.py tools/asked/words.py tools/asked/told.txt
        tools/asked/tables.json tools/model/tables.py tools/refusing/rows.py docs/FAULTS.md docs/PROVED.md docs/press.1 README.md""",
}
