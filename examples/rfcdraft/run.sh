abnfx draft.md
