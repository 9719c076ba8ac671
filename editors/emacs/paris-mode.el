;;; paris-mode.el --- Scripts of Paris programs, with a language server -*- lexical-binding: t; -*-

;; For Emacs from 28 on, with eglot: `paris-mode-ensure' in the mode's hook starts `paris lsp', or says how eglot is installed.
;; Where eglot draws no inlay hints, which it does from 1.10 on, the values beside the visible lines are drawn here.

;;; Code:

(require 'cl-lib)
(require 'subr-x)

(defvar eglot-send-changes-idle-time)
(defvar eglot-server-programs)
(declare-function eglot-current-server "eglot")
(declare-function eglot--pos-to-lsp-position "eglot")
(declare-function eglot--TextDocumentIdentifier "eglot")
(declare-function eglot--uri-to-path "eglot")
(declare-function eglot--lsp-position-to-point "eglot")
(declare-function eglot--server-capable "eglot")
(declare-function jsonrpc-async-request "jsonrpc")
(declare-function jsonrpc-notify "jsonrpc")

(defvar-local paris-mode-ran nil
  "What the last update of the server did.")

(defvar-local paris-mode-values nil
  "The overlays that have the values of lines.")

(defvar-local paris-mode-carets nil
  "The overlays that show where others are.")

(defvar-local paris-mode-caret nil
  "The timer that tells where point is.")

(defface paris-mode-caret '((t :inherit highlight))
  "Others' carets, and their names."
  :group 'paris-mode)

(defface paris-mode-value '((t :inherit shadow))
  "Values beside lines."
  :group 'paris-mode)

(defvar paris-mode-commands
  '("paris" "set" "field" "input" "insert" "delete" "replace" "take" "bring" "release" "settle" "show" "list" "faults")
  "The commands of scripts.")

(defvar paris-mode-font-lock
  `((,(concat "^" (regexp-opt paris-mode-commands 'words)) . font-lock-keyword-face)
    ("\\_<[a-z][a-z0-9-]*-[12]L\\_>" . font-lock-function-name-face)
    ("\\_<\\(?:set\\|clear\\|invert\\|load\\|store\\|log[a-z]+\\)-\\(?:context\\|test\\)[a-z-]*" . font-lock-function-name-face)
    ("\\_<\\(?:upward\\|downward\\|inclusive\\|exclusive\\|none\\|start\\|end\\|after\\)\\_>" . font-lock-constant-face))
  "Colours of words.")

;;;###autoload
(define-derived-mode paris-mode prog-mode "Paris"
  "A script of a Paris program, an instruction a line."
  (modify-syntax-entry ?# "<")
  (modify-syntax-entry ?\n ">")
  (modify-syntax-entry ?- "_")
  (setq-local comment-start "# ")
  (setq-local font-lock-defaults '(paris-mode-font-lock))
  (setq-local eglot-send-changes-idle-time 0.1)
  (add-hook 'window-scroll-functions #'paris-mode-scrolled nil t)
  (add-hook 'post-command-hook #'paris-mode-moved nil t)
  (setq-local mode-line-process '(:eval (if paris-mode-ran (concat " " paris-mode-ran) ""))))

;;;###autoload
(add-to-list 'auto-mode-alist '("\\.paris\\'" . paris-mode))

(defvar paris-mode-server '("paris" "lsp")
  "The command that starts the server.")

(declare-function eglot-ensure "eglot")

;;;###autoload
(defun paris-mode-ensure ()
  "Starts the server for this script by eglot.
Where eglot isn't there, says how it is installed."
  (if (require 'eglot nil t)
      (eglot-ensure)
    (display-warning
     'paris-mode
     "values beside the lines want eglot, which isn't installed: M-x package-install RET eglot, or Debian's elpa-eglot")))

(defun paris-mode-draw (buffer hints)
  "Draws HINTS, what lines give, behind the lines of BUFFER."
  (when (buffer-live-p buffer)
    (with-current-buffer buffer
      (mapc #'delete-overlay paris-mode-values)
      (setq paris-mode-values (mapcar #'paris-mode-value hints)))))

(defun paris-mode-value (hint)
  "An overlay with the words of a HINT at the end of its line."
  (save-excursion
    (save-restriction
      (widen)
      (goto-char (point-min))
      (forward-line (plist-get (plist-get hint :position) :line))
      (let ((overlay (make-overlay (line-end-position) (line-end-position)))
            (words (propertize (concat "  " (plist-get hint :label)) 'face 'paris-mode-value)))
        (put-text-property 0 1 'cursor t words)
        (overlay-put overlay 'after-string words)
        overlay))))

(defun paris-mode-ask (buffer)
  "Asks what the visible lines of BUFFER give, where eglot doesn't ask."
  (let ((window (get-buffer-window buffer t)))
    (when (and window (not (fboundp 'eglot-inlay-hints-mode)) (fboundp 'eglot-current-server))
      (with-current-buffer buffer
        (when-let ((server (eglot-current-server))
                   (start (eglot--pos-to-lsp-position (window-start window)))
                   (end (eglot--pos-to-lsp-position (window-end window t))))
          (jsonrpc-async-request
           server :textDocument/inlayHint
           (list :textDocument (eglot--TextDocumentIdentifier) :range (list :start start :end end))
           :success-fn (lambda (hints) (paris-mode-draw buffer hints))
           :error-fn #'ignore))))))

(defun paris-mode-scrolled (window _start)
  "Asks what the lines give that are visible in WINDOW now, once it is drawn."
  (run-with-timer 0 nil #'paris-mode-ask (window-buffer window)))

;; Where others are in a program of several people, which `paris lsp --join' tells.

(defun paris-mode-draw-caret (caret)
  "The overlays that show CARET: a mark at its place, and the name with what is typed at the end of its line."
  (save-excursion
    (save-restriction
      (widen)
      (let* ((place (eglot--lsp-position-to-point caret))
             (end (progn (goto-char place) (line-end-position)))
             (typed (plist-get caret :text))
             (name (concat "  " (plist-get caret :name) (if (string-empty-p typed) "" (concat ": " typed))))
             (overlays (list (make-overlay place place) (make-overlay end end))))
        (overlay-put (car overlays) 'before-string (propertize "|" 'face 'paris-mode-caret))
        (overlay-put (cadr overlays) 'after-string (propertize name 'face 'paris-mode-caret))
        overlays))))

(defun paris-mode-draw-carets (carets)
  "Draws CARETS, where others are, in this buffer."
  (mapc #'delete-overlay paris-mode-carets)
  (setq paris-mode-carets (mapcan #'paris-mode-draw-caret (append carets nil))))

(defun paris-mode-moved ()
  "Tells the server where point is once it rests for a moment, where others see it."
  (when (and (not paris-mode-caret) (fboundp 'eglot-current-server) (eglot-current-server)
             (eglot--server-capable :experimental :parisCarets))
    (setq paris-mode-caret (run-with-idle-timer 0.1 nil #'paris-mode-tell-caret (current-buffer)))))

(defun paris-mode-tell-caret (buffer)
  "Tells the server where point is in BUFFER."
  (when (buffer-live-p buffer)
    (with-current-buffer buffer
      (setq paris-mode-caret nil)
      (when-let ((server (eglot-current-server)))
        (jsonrpc-notify server :$/paris/caret
                        (list :textDocument (eglot--TextDocumentIdentifier) :position (eglot--pos-to-lsp-position)))))))

(with-eval-after-load 'eglot
  (add-to-list 'eglot-server-programs (cons 'paris-mode paris-mode-server))
  (cl-defmethod eglot-handle-notification (_server (_method (eql $/paris/ran)) &key uri text &allow-other-keys)
    "Shows TEXT, what an update of the file URI did, in the mode line."
    (when-let ((buffer (find-buffer-visiting (eglot--uri-to-path uri))))
      (with-current-buffer buffer
        (setq paris-mode-ran text)
        (force-mode-line-update)
        (paris-mode-ask buffer))))
  (cl-defmethod eglot-handle-notification (_server (_method (eql $/paris/carets)) &key uri carets &allow-other-keys)
    "Draws CARETS, where others are in the file URI."
    (when-let ((buffer (find-buffer-visiting (eglot--uri-to-path uri))))
      (with-current-buffer buffer
        (paris-mode-draw-carets carets)))))

(provide 'paris-mode)
;;; paris-mode.el ends here
