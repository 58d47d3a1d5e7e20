;;; stil-mode.el --- STIL test programs, by the language server of stilfloor  -*- lexical-binding: t -*-

;; (load "/where/it/is/stil-mode.el") in ~/.emacs; it wants eglot, which Emacs 29 has, and Debian's elpa-eglot brings to Emacs 28.
;; M-x eglot in a STIL text starts the server; M-. goes to where a name is declared.

;;; Code:

(require 'eglot)

(defvar stilfloor-command '("stilfloor" "server")
  "The words that start the language server.")

(defvar stil-mode-syntax-table
  (let ((table (make-syntax-table)))
    (modify-syntax-entry ?/ ". 124" table)
    (modify-syntax-entry ?* ". 23b" table)
    (modify-syntax-entry ?\n ">" table)
    (modify-syntax-entry ?\' "\"" table)
    (modify-syntax-entry ?_ "w" table)
    table)
  "Comments, quotes and words of STIL.")

(defconst stil-mode-keywords
  (regexp-opt
   '("STIL" "Header" "Signals" "SignalGroups" "Spec" "Category" "Selector" "Timing" "WaveformTable" "Waveforms" "ScanStructures"
     "ScanChain" "MacroDefs" "Procedures" "PatternBurst" "PatList" "PatternExec" "Pattern" "UserKeywords" "UserFunctions"
     "W" "V" "C" "Vector" "Condition" "Loop" "Macro" "Call" "Shift" "Stop" "BreakPoint" "IddqTestPoint" "Period"
     "InheritWaveformTable" "ScanLength" "ScanIn" "ScanOut" "ScanCells" "ScanInversion" "ScanEnable" "ScanMasterClock"
     "ScanSlaveClock" "ScanOutLength" "Title" "Date" "Source" "History" "Design")
   'words)
  "The keywords of STIL.")

;;;###autoload
(define-derived-mode stil-mode prog-mode "STIL"
  "STIL test programs."
  (setq-local comment-start "// ")
  (setq-local font-lock-defaults `(((,stil-mode-keywords . font-lock-keyword-face)))))

;;;###autoload
(add-to-list 'auto-mode-alist '("\\.stil\\'" . stil-mode))

(add-to-list 'eglot-server-programs (cons 'stil-mode (lambda (&rest _) stilfloor-command)))

(provide 'stil-mode)
;;; stil-mode.el ends here
