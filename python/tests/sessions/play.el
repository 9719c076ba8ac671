;;; play.el --- What a user does in Emacs while a session is recorded  -*- lexical-binding: t; -*-

;;; Code:

(require 'eglot)
(require 'paris-mode)

(defvar play-patience 20.0)

(defun play-until (what)
  "Waits until the function WHAT gives something, and gives it."
  (let ((end (+ (float-time) play-patience)) found)
    (while (not (setq found (funcall what)))
      (when (> (float-time) end)
        (error "It didn't come"))
      (accept-process-output nil 0.02))
    found))

(defun play-ran (words)
  "Waits until the words of the last update have WORDS."
  (play-until (lambda () (and paris-mode-ran (string-match-p words paris-mode-ran)))))

(defun play-at (line column)
  "Goes to a LINE, from 1, and a COLUMN, from 0."
  (goto-char (point-min))
  (forward-line (1- line))
  (move-to-column column))

(defun play-type (line old new)
  "Puts NEW in the place of OLD in a LINE, and tells the server."
  (play-at line 0)
  (search-forward old)
  (replace-match new t t)
  (eglot--signal-textDocument/didChange))

(defun play-hover ()
  "Has the values of the key under the cursor shown, with the places that name it."
  (let (shown)
    (eglot-hover-eldoc-function (lambda (words &rest _) (setq shown (or words "nothing"))))
    (play-until (lambda () shown))))

(defun play-names ()
  "Asks where a value comes from, and where its name stands."
  (play-at 8 13)
  (unless (xref-backend-definitions 'eglot (xref-backend-identifier-at-point 'eglot))
    (error "No definition"))
  (play-at 8 13)
  (eglot-find-declaration)
  (play-at 8 13)
  (unless (xref-backend-references 'eglot "b")
    (error "No references")))

(defun play ()
  "Opens the file of the command line, and does what a user does."
  (setq eglot-connect-timeout play-patience)
  (switch-to-buffer (find-file-noselect (pop command-line-args-left)))
  (apply #'eglot (eglot--guess-contact))
  (play-ran "the first text")
  (play-type 6 "3 4" "3 5")
  (play-ran "2 of 2 rows ran again")
  (play-at 8 13)
  (play-hover)
  (play-names)
  (play-at 10 0)
  (eglot-code-actions (line-beginning-position) (line-end-position))
  (eglot-imenu)
  (play-type 10 "u-ad-3-1L a a a 8" "u-add-3-1L a ")
  (play-at 10 13)
  (all-completions "" (nth 2 (eglot-completion-at-point)))
  (play-type 10 "u-add-3-1L a " "u-add-3-1L a c c 8")
  (play-ran "1 of 3 rows ran again")
  (play-at 8 13)
  (eglot-rename "twice")
  (eglot--signal-textDocument/didChange)
  (play-ran "a new book")
  (save-buffer)
  (play-ran "0 of 3 rows ran again")
  (eglot-shutdown (eglot-current-server)))

;;; play.el ends here
