" CHILL, by the words of docs/LANGUAGE.md. Made by editors/make.
if exists("b:current_syntax")
  finish
endif

syntax case match
syntax keyword chillKeyword ALL all ASSERT assert BEGIN begin BY by CALL call CASE case
syntax keyword chillKeyword CAUSE cause CONTINUE continue DCL dcl DELAY delay DO do DOWN down
syntax keyword chillKeyword ELSE else ELSIF elsif END end ESAC esac EVER ever EXCEPTIONS exceptions
syntax keyword chillKeyword EXIT exit FI fi FOR for GRANT grant IF if INIT init
syntax keyword chillKeyword INOUT inout MODULE module NEWMODE newmode NOPACK nopack OD od OF of
syntax keyword chillKeyword ON on OUT out PACK pack POS pos PRIORITY priority PROC proc
syntax keyword chillKeyword PROCESS process RECEIVE receive REGION region RESULT result RETURN return RETURNS returns
syntax keyword chillKeyword SEIZE seize SEND send SIGNAL signal START start STEP step STOP stop
syntax keyword chillKeyword SYN syn SYNMODE synmode THEN then TO to WHILE while
syntax keyword chillType INT int BOOL bool CHAR char INSTANCE instance ARRAY array BUFFER buffer
syntax keyword chillType CHARS chars EVENT event POWERSET powerset READ read SET set STRUCT struct
syntax keyword chillConstant TRUE true FALSE false NULL null THIS this
syntax keyword chillFunction NUM num SUCC succ PRED pred ABS abs CARD card MIN min
syntax keyword chillFunction MAX max UPPER upper LOWER lower SIZE size PUT_INT put_int PUT_TEXT put_text
syntax keyword chillFunction PUT_NL put_nl GET_INT get_int
syntax keyword chillOperator AND and ANDIF andif IN in MOD mod NOT not OR or
syntax keyword chillOperator ORIF orif REM rem XOR xor
syntax match chillNumber "\<[0-9]\+\(_[0-9]\+\)*\>"
syntax match chillNumber "\<\([Dd]'[0-9]\+\(_[0-9]\+\)*\|[Hh]'[0-9A-Fa-f]\+\(_[0-9A-Fa-f]\+\)*\|[Oo]'[0-7]\+\(_[0-7]\+\)*\|[Bb]'[01]\+\(_[01]\+\)*\)"
syntax match chillCharacter "'\(''\|[^'\n]\)'"
syntax match chillString +"\([^"\n]\|""\)*"+
syntax match chillComment "--.*$"
syntax region chillComment start="/\*" end="\*/"

highlight default link chillKeyword Keyword
highlight default link chillType Type
highlight default link chillConstant Constant
highlight default link chillFunction Function
highlight default link chillOperator Operator
highlight default link chillNumber Number
highlight default link chillCharacter Character
highlight default link chillString String
highlight default link chillComment Comment

let b:current_syntax = "chill"
