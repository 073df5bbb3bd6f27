;;; milkhour.el --- Programs and proofs of milkhour  -*- lexical-binding: t -*-

;; A mode for programs and proofs, with `milkhour lsp' by eglot, which Emacs 29 has and Emacs 28 takes as a package: (require 'milkhour),
;; then M-x eglot.

;;; Code:

(require 'eglot)

;;;###autoload
(define-derived-mode milkhour-mode prog-mode "Milkhour"
  "Programs in SPL, and proofs of them."
  (setq-local comment-start "% ")
  (setq-local comment-start-skip "%+ *")
  (setq-local indent-tabs-mode nil))

;;;###autoload
(dolist (names '("\\.\\(spl\\|proof\\)\\'" "/\\(program\\|proof\\)\\'"))
  (add-to-list 'auto-mode-alist (cons names 'milkhour-mode)))

(add-to-list 'eglot-server-programs '(milkhour-mode . ("milkhour" "lsp")))

(provide 'milkhour)
;;; milkhour.el ends here
