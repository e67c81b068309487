<?php

namespace App\Controller;

use Symfony\Bundle\FrameworkBundle\Controller\AbstractController;
use Symfony\Component\HttpFoundation\Cookie;
use Symfony\Component\HttpFoundation\Request;
use Symfony\Component\HttpFoundation\Response;
use Symfony\Component\HttpKernel\Exception\AccessDeniedHttpException;

/** What is a reader's own, by his session. Symfony says of all that has used one that it is private. */
class ReaderController extends AbstractController
{
    public function basket(Request $request): Response
    {
        $session = $request->getSession();
        if (!$request->isMethod('POST')) {
            return $this->render('basket.html.twig', ['items' => $session->get('items', [])]);
        }
        $this->refuseForged('basket', $request);
        $item = (string) $request->request->get('item');
        $session->set('items', [...$session->get('items', []), $item]);
        $this->addFlash('notice', 'Added: '.$item);

        return $this->redirectToRoute('basket', [], 303);
    }

    /** The part of other pages that has a reader's basket. Readers without a session get the same, and no session by it. */
    public function box(Request $request): Response
    {
        if (!$request->hasPreviousSession()) {
            return $this->render('box.html.twig', ['items' => []])->setPublic()->setSharedMaxAge(600);
        }

        return $this->render('box.html.twig', ['items' => $request->getSession()->get('items', [])])->setPrivate();
    }

    public function account(Request $request): Response
    {
        $name = $request->hasPreviousSession() ? $request->getSession()->get('name') : null;
        if (null === $name) {
            return $this->redirectToRoute('login');
        }

        return $this->render('account.html.twig', ['name' => $name, 'from' => $request->getClientIp()]);
    }

    public function login(Request $request): Response
    {
        if (!$request->isMethod('POST')) {
            return $this->render('login.html.twig');
        }
        $this->refuseForged('login', $request);
        $request->getSession()->migrate(true);
        $request->getSession()->set('name', (string) $request->request->get('name'));
        $response = $this->redirectToRoute('account', [], 303);
        $response->headers->setCookie(Cookie::create('seen', 'yes'));

        return $response;
    }

    private function refuseForged(string $form, Request $request): void
    {
        if (!$this->isCsrfTokenValid($form, (string) $request->request->get('_token'))) {
            throw new AccessDeniedHttpException('The form is not of this session.');
        }
    }
}
