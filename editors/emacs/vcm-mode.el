;;; vcm-mode.el --- colours for measuring programs -*- lexical-binding: t -*-
;; (load "emacs/vcm-mode.el") in the init file: files that end in .dmi or .dmis open with it. C-c C-c checks the program (vcm.el has the places of its messages).
(defvar vcm-mode-words
  `(("\\$\\$.*$" 0 font-lock-comment-face t)
    ("'[^'\n]*'" . font-lock-string-face)
    ("'[^'\n]*$" . font-lock-warning-face)
    (,(concat "^\\s-*\\(?:\\(?:MODE\\|FEDRAT\\|ACLRAT\\|FINPOS\\|PRCOMP\\|DECPL\\|FILNAM\\|DISPLY\\|WKPLAN\\|SNSLCT\\)\\s-*/"
              "\\|[SV]\\s-*([A-Z0-9_]+)\\s-*=\\s-*\\(?:SNSDEF\\|VFORM\\)/\\).*$") . font-lock-doc-face)
    ("\\_<\\(?:DMISMN\\|ENDFIL\\|UNITS\\)\\_>" . font-lock-preprocessor-face)
    (,(concat "\\_<" (regexp-opt '("ASSIGN" "GOTO" "GOHOME" "FEAT" "MEAS" "PTMEAS" "ENDMES" "SNSET" "TRANS" "ROTATE" "RECALL" "OBTAIN" "OUTPUT" "TEXT" "IF" "ELSE" "ENDIF"
                                   "DO" "ENDDO" "SELECT" "CASE" "ENDCAS" "DFTCAS" "ENDSEL" "JUMPTO" "MACRO" "ENDMAC" "CALL") t) "\\_>") . font-lock-keyword-face)
    ("\\_<\\(?:DECL\\|INTGR\\|LONG\\|REAL\\|DOUBLE\\|BOOL\\|COMMON\\|GLOBAL\\|LOCAL\\)\\_>" . font-lock-type-face)
    ("\\_<\\(?:FA?\\|D\\|M\\)([A-Z0-9_]+)" . font-lock-variable-name-face)
    ("^\\s-*\\(([A-Z0-9_]+)\\)\\s-*$\\|JUMPTO/\\(([A-Z0-9_]+)\\)" (1 font-lock-constant-face nil t) (2 font-lock-constant-face nil t))
    ("\\.\\(?:EQ\\|NE\\|LT\\|LE\\|GT\\|GE\\|NOT\\|AND\\|OR\\|TRUE\\|FALSE\\)\\." . font-lock-builtin-face)
    ("\\_<\\(?:POINT\\|CART\\|OPER\\|MM\\|ANGDEC\\|APPRCH\\|RETRCT\\|SEARCH\\|DEPTH\\|[XYZ]ORIG\\|[XYZ]AXIS\\)\\_>" . font-lock-constant-face))
  "What has a colour: comments, texts, words, labels and operators.")

;;;###autoload
(define-derived-mode vcm-mode prog-mode "vcm"
  "A mode with colours for measuring programs as vcm reads them."
  (dolist (it '(?/ ?+ ?- ?* ?= ?$)) (modify-syntax-entry it "."))
  (setq-local comment-start "$$ " font-lock-defaults '(vcm-mode-words t t))
  (setq-local compile-command (let ((file (and buffer-file-name (shell-quote-argument (file-name-nondirectory buffer-file-name)))))
                                (format "vcm check %s 2>&1 | awk -v f=%s '{ print f \": \" $0 }'" (or file "FILE") (or file "FILE")))))
(define-key vcm-mode-map (kbd "C-c C-c") #'compile)
;;;###autoload
(add-to-list 'auto-mode-alist '("\\.dmis?\\'" . vcm-mode))
(provide 'vcm-mode)
;;; vcm-mode.el ends here
