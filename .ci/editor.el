;; What `.ci/editor` has Emacs do: each line of the file `told` is the name of a try and what came of it, in JSON.  -*- lexical-binding: t -*-
(require 'json)
(require 'flymake)

(defvar editor-wait (string-to-number (getenv "EDITOR_WAIT")) "How many seconds one answer may take.")

(defun editor-tell (name found)
  (write-region (concat (json-encode (list name found)) "\n") nil (expand-file-name "told" default-directory) t 'silent))

(defun editor-wait-for (test)
  "Waits until a test comes to something, and gives that."
  (let ((end (+ (float-time) editor-wait)) found)
    (while (and (not (setq found (funcall test))) (< (float-time) end))
      (accept-process-output nil 0.05))
    found))

(defun editor-places ()
  "The lines, columns and kinds of what is told of this buffer, counted from 1."
  (vconcat (mapcar (lambda (it)
                     (save-excursion
                       (goto-char (flymake-diagnostic-beg it))
                       (list (line-number-at-pos) (1+ (current-column)) (replace-regexp-in-string ".*[-:]" "" (symbol-name (flymake-diagnostic-type it))))))
                   (flymake-diagnostics))))

(defun editor-places-when (is-wanted)
  (editor-wait-for (lambda () (funcall is-wanted (editor-places))))
  (editor-places))

(defun editor-some (found) (< 0 (length found)))
(defun editor-none (found) (= 0 (length found)))

(defun editor-mend (wrong right)
  (goto-char (point-min))
  (search-forward wrong)
  (replace-match right t t)
  (eglot--signal-textDocument/didChange))

(defun editor-play ()
  (find-file "proof")
  (editor-tell "kind of the proof" (symbol-name major-mode))
  (call-interactively #'eglot)
  (editor-tell "a fault" (editor-places-when #'editor-some))
  (editor-mend "m44" "m4")
  (editor-tell "mended" (editor-places-when #'editor-none))
  (save-buffer)
  (editor-tell "saved, open conditions" (editor-places-when #'editor-some))

  (find-file "program")
  (editor-tell "kind of the program" (symbol-name major-mode))
  (editor-wait-for #'eglot-current-server)
  (goto-char (point-min))
  (search-forward "y2, s) :=")
  (goto-char (match-beginning 0))
  (let ((hover (jsonrpc-request (eglot-current-server) :textDocument/hover (eglot--TextDocumentPositionParams))))
    (editor-tell "hover" (plist-get (plist-get hover :contents) :value)))
  (let ((declared (car (xref-backend-definitions 'eglot (xref-backend-identifier-at-point 'eglot)))))
    (editor-tell "definition" (xref-location-line (xref-item-location declared))))
  (let ((found (eglot-completion-at-point)))
    (editor-tell "completion" (vconcat (all-completions "" (nth 2 found)))))
  (goto-char (point-max))
  (insert "% the end   \n")
  (eglot--signal-textDocument/didChange)
  (eglot-format-buffer)
  (save-buffer)
  (editor-tell "formatted" (vconcat (split-string (buffer-string) "\n" t)))

  (switch-to-buffer "proof")
  (erase-buffer)
  (insert-file-contents "whole")
  (eglot--signal-textDocument/didChange)
  (save-buffer)
  (editor-tell "proved" (editor-places-when #'editor-none))
  (editor-tell "servers" (length (delete-dups (apply #'append (hash-table-values eglot--servers-by-project))))))

(setq eglot-connect-timeout (* 6 editor-wait) make-backup-files nil auto-save-default nil create-lockfiles nil)
(condition-case fault
    (progn (editor-play) (editor-tell "the end" "all was played"))
  (error (editor-tell "the end" (format "%S" fault))))
(kill-emacs 0)
