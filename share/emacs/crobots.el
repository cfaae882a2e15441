;;; crobots.el --- robots in Emacs  -*- lexical-binding: t -*-

;;; Commentary:

;; A mode for robots, with the language server by eglot and the debug adapter by dap-mode.  Files `.r' are robots if they have
;; the head of a function main, or are in a folder `robots'.

;;; Code:

(require 'cc-mode)

(defgroup crobots nil "Robots." :group 'languages)

(defcustom crobots-profile 1
  "The language profile: 1 or 2."
  :type 'integer)

(defconst crobots-font-lock
  `((,(regexp-opt '("if" "else" "while" "return") 'symbols) . font-lock-keyword-face)
    (,(regexp-opt '("int" "long" "auto" "register") 'symbols) . font-lock-type-face)
    ("^\\([A-Za-z_][A-Za-z0-9_]*\\)[ \t]*(" 1 font-lock-function-name-face))
  "What of a robot has a colour.")

;;;###autoload
(define-derived-mode crobots-mode prog-mode "Robot"
  "A mode for robots."
  :syntax-table c-mode-syntax-table
  (setq-local font-lock-defaults '(crobots-font-lock)
              comment-start "/* "
              comment-end " */"
              indent-tabs-mode nil)
  (c-initialize-cc-mode t)
  (c-init-language-vars-for 'c-mode)
  (c-basic-common-init 'c-mode "k&r")
  (setq-local indent-line-function #'c-indent-line
              c-basic-offset 2))

(defun crobots-is-robot ()
  "Whether the buffer is a robot, and no program in R."
  (and buffer-file-name
       (string-suffix-p ".r" buffer-file-name)
       (save-excursion
         (goto-char (point-min))
         (not (re-search-forward "^[ \t]*[A-Za-z.][A-Za-z0-9._]*[ \t]*<-" nil t)))
       (or (equal (file-name-nondirectory (directory-file-name (file-name-directory buffer-file-name))) "robots")
           (save-excursion
             (goto-char (point-min))
             (re-search-forward "^[ \t]*\\(?:\\(?:int\\|long\\|auto\\|register\\)[ \t]+\\)*main[ \t]*(" nil t)))))

;;;###autoload
(add-to-list 'magic-mode-alist '(crobots-is-robot . crobots-mode))

;; The language server.

(defvar eglot-server-programs)

(with-eval-after-load 'eglot
  (add-to-list 'eglot-server-programs
               `(crobots-mode . ("crobots-lsp" :initializationOptions (:profile ,crobots-profile)))))

;; The debug adapter.

(declare-function dap-register-debug-provider "dap-mode")
(declare-function dap--send-message "dap-mode")
(declare-function dap--make-request "dap-mode")
(declare-function dap--resp-handler "dap-mode")
(declare-function dap--cur-session-or-die "dap-mode")
(declare-function dap--resume-application "dap-mode")
(declare-function dap--debug-session-thread-id "dap-mode")
(declare-function dap-debug "dap-mode")
(declare-function dap-ui-mode "dap-ui")

(defun crobots-dap-configuration (given)
  "The arguments of a launch, with the command of the adapter: what GIVEN lacks is added."
  (let ((made (copy-sequence given))
        (added (list :dap-server-path '("crobots-dap")
                     :type "crobots" :request "launch" :name "robot" :profile crobots-profile
                     :robots (vector (buffer-file-name)))))
    (while added
      (unless (plist-member made (car added))
        (setq made (plist-put made (car added) (cadr added))))
      (setq added (cddr added)))
    made))

(with-eval-after-load 'dap-mode
  (require 'dap-ui)
  (dap-register-debug-provider "crobots" #'crobots-dap-configuration))

;; dap-mode loads itself for a launch alone, and breakpoints may be set before that.
(dolist (command '(dap-breakpoint-toggle dap-breakpoint-condition dap-breakpoint-hit-condition dap-breakpoint-log-message))
  (autoload command "dap-mode" nil t))

(defun crobots-debug (others)
  "Launch a match of the buffer's robot against OTHERS, files with blanks between them."
  (interactive "sAgainst: ")
  (require 'dap-mode)
  ;; marks the line at which the robot is
  (dap-ui-mode 1)
  (dap-debug (list :type "crobots" :request "launch" :name "robot"
                   :robots (vconcat (cons (buffer-file-name) (mapcar #'expand-file-name (split-string others)))))))

(defun crobots--move (command)
  "Ask the adapter for a move that dap-mode lacks: COMMAND."
  (let ((session (dap--cur-session-or-die)))
    (dap--send-message (dap--make-request command (list :threadId (dap--debug-session-thread-id session)))
                       (dap--resp-handler)
                       session)
    (dap--resume-application session)))

(defun crobots-step-back ()
  "Step to the line before."
  (interactive)
  (crobots--move "stepBack"))

(defun crobots-reverse-continue ()
  "Go back to the breakpoint before."
  (interactive)
  (crobots--move "reverseContinue"))

(provide 'crobots)
;;; crobots.el ends here
