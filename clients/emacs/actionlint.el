;;; actionlint.el --- Faults of workflows as you type, by eglot  -*- lexical-binding: t -*-

;; (add-to-list 'load-path "/path/clients/emacs")
;; (require 'actionlint)
;; (add-hook 'yaml-mode-hook #'actionlint-ensure)

;; Eglot has one server for a mode of a project.  Workflows and actions get a mode of their own, derived from that of YAML, so that other
;; files of the project keep the server that they have.

;;; Code:
(require 'eglot)
(require 'yaml-mode nil t)

(defcustom actionlint-command '("actionlint-lsp")
  "The language server and its options."
  :type '(repeat string) :group 'eglot)

(define-derived-mode actionlint-mode yaml-mode "Workflow"
  "YAML of a workflow or an action.")

(when (fboundp 'yaml-ts-mode)
  (define-derived-mode actionlint-ts-mode yaml-ts-mode "Workflow"
    "YAML of a workflow or an action."))

(add-to-list 'eglot-server-programs
             `(((actionlint-mode :language-id "yaml") (actionlint-ts-mode :language-id "yaml"))
               . ,(lambda (&rest _) actionlint-command)))

(defun actionlint-ensure ()
  "Start the language server in a buffer that visits a workflow or an action; leave others as they are."
  (when (and buffer-file-name
             (string-match-p "\\(/\\.github/workflows/[^/]+\\|/action\\)\\.ya?ml\\'" buffer-file-name))
    (cond ((derived-mode-p 'actionlint-mode 'actionlint-ts-mode) (eglot-ensure))
          ((derived-mode-p 'yaml-ts-mode) (actionlint-ts-mode))
          ((derived-mode-p 'yaml-mode) (actionlint-mode)))))

(provide 'actionlint)
;;; actionlint.el ends here
