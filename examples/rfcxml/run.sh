abnfx draft.xml
