" STIL test programs: the profile that docs/language.md describes. What it leaves out is shown as an error.
if exists('b:current_syntax')
  finish
endif

syntax case match

" keywords
syntax keyword stilBlock Header Signals SignalGroups Spec Category Selector Timing WaveformTable Waveforms
syntax keyword stilBlock ScanStructures ScanChain MacroDefs Procedures PatternBurst PatList PatternExec Pattern
syntax keyword stilBlock UserKeywords UserFunctions
syntax keyword stilStatement W V C Vector Condition Loop Macro Call Shift Stop BreakPoint IddqTestPoint
syntax keyword stilStatement Period InheritWaveformTable ScanLength ScanIn ScanOut ScanCells ScanInversion
syntax keyword stilStatement ScanEnable ScanMasterClock ScanSlaveClock ScanOutLength Title Date Source History Design
syntax keyword stilType In Out InOut Supply Pseudo Min Typ Max Meas
syntax keyword stilLeftOut Include SubWaveforms InheritWaveform Goto MatchLoop If Else While TimeUnit Termination Start
syntax keyword stilLeftOut DCLevels DCSets Variables Variable Environment ParallelPatList ScanChainGroups ActiveScanChains
syntax keyword stilLeftOut LoopData

" the header names parts of the standard
syntax match stilHead /\<STIL\s\+\d\+\.\d\+\(\s*{[^}]*}\)\=/

" acts of events, behind a time in quotes or a slash; elsewhere such letters are names and characters
syntax match stilAct /\('\s*\|\/\s*\)\@<=\(Force\(Down\|Up\|Off\|Unknown\|Prior\)\|Compare\(Low\|High\|Off\)\(Window\)\=\|CompareUnknown\)\>/
syntax match stilAct /\('\s*\|\/\s*\)\@<=[DUZNPLHXTlhtx]\ze\s*[;\/]/
syntax match stilActLeftOut /\('\s*\|\/\s*\)\@<=[VvABFMGRQ?]\ze\s*[;\/]/

" data: what is assigned up to its semicolon
syntax region stilData matchgroup=stilAssign start=/=/ matchgroup=NONE end=/;\@=/ contains=stilTake,stilRepeat,stilDataLeftOut,stilText,stilComment,stilAnnotation keepend
syntax match stilTake /[#%]/ contained
syntax match stilRepeat /\\r\d\+/ contained
syntax match stilDataLeftOut /\\[hdlwmje]/ contained
syntax match stilNumber /\<\d\+\(\.\d\+\)\=\>/
syntax match stilLabel /\(^\|[;{}]\)\s*\zs\("[^"]*"\|\h\w*\)\ze\s*:/

" quotes: a time or a group expression, and a name
syntax region stilText start=/'/ end=/'/ contains=stilUnit,stilFunction,stilName
syntax match stilUnit /\<\d\+\(\.\d\+\)\=\(s\|ms\|us\|ns\|ps\|fs\)\=\>/ contained
syntax match stilFunction /\<\(min\|max\)\ze\s*(/ contained
syntax region stilName start=/"/ end=/"/

" what is skipped
syntax region stilComment start=/\/\// end=/$/ contains=@Spell
syntax region stilComment start=/\/\*/ end=/\*\// contains=@Spell
syntax region stilAnnotation start=/\<Ann\s*{\*/ end=/\*}/ contains=@Spell

syntax sync minlines=200

highlight default link stilBlock Structure
highlight default link stilHead Structure
highlight default link stilStatement Statement
highlight default link stilType Type
highlight default link stilAct Special
highlight default link stilLeftOut Error
highlight default link stilActLeftOut Error
highlight default link stilDataLeftOut Error
highlight default link stilAssign Operator
highlight default link stilData Constant
highlight default link stilTake Special
highlight default link stilRepeat Special
highlight default link stilNumber Number
highlight default link stilLabel Label
highlight default link stilText String
highlight default link stilUnit Number
highlight default link stilFunction Function
highlight default link stilName Identifier
highlight default link stilComment Comment
highlight default link stilAnnotation Comment

let b:current_syntax = 'stil'
