;;; vcm.el --- the messages of vcm in Emacs -*- lexical-binding: t -*-
;; M-x compile with:  vcm check FILE 2>&1 | awk -v f=FILE '{ print f ": " $0 }'
(with-eval-after-load 'compile
  (add-to-list 'compilation-error-regexp-alist-alist '(vcm "^\\(.+\\): [EL][0-9][0-9] \\w+ line \\([0-9]+\\)$" 1 2 nil 2))
  (add-to-list 'compilation-error-regexp-alist-alist '(vcm-notice "^\\(.+\\): notice line \\([0-9]+\\): " 1 2 nil 0))
  (add-to-list 'compilation-error-regexp-alist 'vcm)
  (add-to-list 'compilation-error-regexp-alist 'vcm-notice))
(provide 'vcm)
;;; vcm.el ends here
